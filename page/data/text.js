// Texts, bytes and numbers, as the page and its worker use them.

const to_bytes = new TextEncoder(), to_text = new TextDecoder();

export const bytes_of = (text) => to_bytes.encode(text);
export const text_of = (bytes) => to_text.decode(bytes);

// A number with a comma between thousands.
export const grouped = (number) => String(number).replace(/\B(?=(\d{3})+$)/g, ',');
export const range_words = (first, last) => first === last ? `packet ${grouped(first)}` : `packets ${grouped(first)} to ${grouped(last)}`;
export const counted = (count, one, many) => `${grouped(count)} ${count === 1 ? one : many}`;
export const sentence = (text) => `${text[0].toUpperCase()}${text.slice(1)}.`;

export class Reader {
  constructor(bytes, at = 0) {
    this.bytes = bytes;
    this.at = at;
  }

  is_digit() {
    const byte = this.bytes[this.at];
    return byte >= 48 && byte <= 57;
  }

  // A whole number; above 2^53 the nearest one that there is.
  number() {
    const start = this.at;
    let number = 0;
    for (let byte = this.bytes[this.at]; byte >= 48 && byte <= 57; byte = this.bytes[++this.at]) number = number * 10 + byte - 48;
    return Number.isSafeInteger(number) ? number : Number(text_of(this.bytes.subarray(start, this.at)));
  }

  // A number that may be below zero.
  signed() {
    if (this.bytes[this.at] !== 45) return this.number();
    this.at += 1;
    return -this.number();
  }

  next_line() {
    const end = this.bytes.indexOf(10, this.at);
    this.at = (end < 0 ? this.bytes.length : end) + 1;
  }

  // This line as a text; goes to the one after it.
  line() {
    const start = this.at;
    this.next_line();
    return text_of(this.bytes.subarray(start, this.at - 1));
  }
}

// The last of so many places at which something holds, if it holds at all places before it too; or 0.
export function last_place(count, holds) {
  let low = 0, high = count - 1;
  while (low < high) {
    const middle = (low + high + 1) >> 1;
    if (holds(middle)) low = middle;
    else high = middle - 1;
  }
  return low;
}
