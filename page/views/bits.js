// Vectors and data of packets as bytes in hexadecimal and as bits.

import { button, element, fill } from './parts.js';
import { counted, grouped } from '../data/text.js';

const BYTES_A_ROW = 8;
const MOST_BYTES = 64;
const ROWS_AT_ONCE = 64;
const MOST_ROWS = 1024; // if all are asked for

// (browsers of before 2025 have no Uint8Array.fromHex)
export function from_hex(text) {
  const bytes = new Uint8Array(text.length >> 1);
  for (let place = 0; place < bytes.length; place += 1) bytes[place] = parseInt(text.substr(2 * place, 2), 16);
  return bytes;
}

export const to_hex = (bytes) => Array.from(bytes, (byte) => byte.toString(16).padStart(2, '0')).join(' ');

// Bytes as hexadecimal digits in pairs, of many the beginning and how many there are.
export function hex_words(bytes) {
  const shown = to_hex(bytes.subarray(0, MOST_BYTES));
  return bytes.length > MOST_BYTES ? `${shown} .. (${grouped(bytes.length)} bytes)` : shown;
}

export const bit_at = (bytes, place) => (bytes[place >> 3] >> (7 - (place & 7))) & 1;

// The places at which a vector has a one, in words.
export function ones_words(bytes, most = 12) {
  const places = Array.from({ length: 8 * bytes.length }, (_, place) => place).filter((place) => bit_at(bytes, place));
  return places.length ? `${counted(places.length, 'place', 'places')}: ${places.slice(0, most).join(', ')}${places.length > most ? ' ..' : ''}` : 'no place';
}

// The bits of one row of bytes: bits of the same kind stand in one part. `kind_of` gives the class of a bit by its place.
function bit_row(bytes, from, bits, kind_of) {
  const hex = bytes.subarray(from, from + BYTES_A_ROW), parts = [];
  for (let place = 8 * from; place < Math.min(bits, 8 * (from + hex.length)); place += 1) {
    const kind = kind_of(place);
    if (parts.at(-1)?.kind !== kind) parts.push({ kind, text: '' });
    parts.at(-1).text += bit_at(bytes, place);
    if (place % 8 === 7) parts.push({ kind: null, text: ' ' });
  }
  const told = parts.map(({ kind, text }) => (kind ? element('span', { class: kind }, text) : text));
  return [element('span', { class: 'place' }, `${String(8 * from).padStart(7)}  `), to_hex(hex).padEnd(3 * BYTES_A_ROW + 1), ...told, '\n'];
}

// Bytes with their bits, in rows of eight bytes; `after_row` gives what stands below the row of a byte. If there are many rows, a
// button gives the rest; the row of the bit `wanted` is among those at once.
export function bit_table(bytes, bits, kind_of = () => '', wanted = 0, after_row = () => '') {
  const box = element('div', { class: 'bits', role: 'group', tabindex: '0', 'aria-label': 'Bytes and bits' });
  const middle = Math.floor(wanted / 8 / BYTES_A_ROW), rows = Math.ceil(bytes.length / BYTES_A_ROW);
  const first = rows > ROWS_AT_ONCE ? Math.max(0, middle - ROWS_AT_ONCE / 2) : 0;
  const draw = (from, to) => {
    const starts = Array.from({ length: to - from }, (_, row) => (from + row) * BYTES_A_ROW);
    fill(box, element('span', { class: 'place' }, '    bit  bytes                    bits\n'), ...starts.flatMap((start) => [...bit_row(bytes, start, bits, kind_of), after_row(start)]));
  };
  const last = Math.min(rows, first + ROWS_AT_ONCE);
  draw(first, last);
  if (first > 0 || last < rows) {
    box.append(button(rows > MOST_ROWS ? `The first ${grouped(MOST_ROWS)} of ${grouped(rows)} rows` : `All ${grouped(rows)} rows`, () => draw(0, Math.min(rows, MOST_ROWS))));
  }
  return box;
}

// The data of a packet that has a first wrong bit: it is marked, with an arrow below, and what follows is faint.
export function wrong_table(data, wrong) {
  const arrow = (from) => {
    if (wrong < 8 * from || wrong >= 8 * (from + BYTES_A_ROW)) return '';
    const inside = wrong - 8 * from, before = 9 + 3 * BYTES_A_ROW + 1 + inside + Math.floor(inside / 8);
    return element('span', { class: 'arrow' }, `${' '.repeat(before)}▲ bit ${wrong} is the first wrong one\n`);
  };
  return bit_table(data, 8 * data.length, (place) => (place === wrong ? 'first-wrong' : place > wrong ? 'after' : ''), wrong, arrow);
}
