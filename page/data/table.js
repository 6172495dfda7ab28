// The table of a recording's fields as lists of numbers, and where its packets stand among all numbers.

import { WRITTEN } from './runs.js';
import { fields_of } from './records.js';
import { Reader, last_place, text_of } from './text.js';

export const [WITHIN, BELOW, ABOVE] = [0, 1, 2];

// The table that `table` writes: its fields' names, a list of values for each, and where the line of each packet begins.
export function read_table(bytes) {
  const reader = new Reader(bytes), names = reader.line().split(',').slice(1);
  let count = 0;
  for (let at = bytes.indexOf(10, reader.at); at >= 0; at = bytes.indexOf(10, at + 1)) count += 1;
  const line = new Float64Array(count), fields = names.map((name) => new_field(name, count));
  for (let t = 0; t < count; t += 1) {
    line[t] = reader.at;
    reader.number();
    for (const field of fields) {
      reader.at += 1;
      const start = reader.at, value = field.values[t] = reader.signed();
      if (value < field.low || t === 0) field.low = value;
      if (value > field.high || t === 0) field.high = value;
      if (!Number.isSafeInteger(value)) take_large(field.large, BigInt(text_of(bytes.subarray(start, reader.at))));
    }
    reader.at += 1;
  }
  for (const field of fields) field.words = range_of(field);
  return { bytes, count, fields, line };
}

// Takes a value beyond 2^53 into the exact least and greatest one of these.
function take_large(large, value) {
  if (!(large.low <= value)) large.low = value;
  if (!(large.high >= value)) large.high = value;
}

// The range of a field in words: an end beyond 2^53 is that of the values there.
const range_of = ({ low, high, large }) => `${Number.isSafeInteger(low) ? low : large.low} to ${Number.isSafeInteger(high) ? high : large.high}`;

const new_field = (name, count) => ({ name, values: new Float64Array(count), out: new Uint8Array(count), outside: 0, limit: null, low: 0, high: 0, large: {}, words: '' });

// Marks in the table what its report lists out of the limits; gives which packets have such a value. Values are compared exactly.
export function mark_outside(table, bytes) {
  const reader = new Reader(bytes), any = new Uint8Array(table.count), fields = new Map(table.fields.map((field) => [field.name, field]));
  reader.next_line();
  while (reader.is_digit()) {
    const [t, name, value, low] = reader.line().split(','), field = fields.get(name);
    field.out[t] = BigInt(value) < BigInt(low) ? BELOW : ABOVE;
    field.outside += 1;
    any[t] = 1;
  }
  return any;
}

// The limits that the text of the fields gives, as texts and as numbers.
export function mark_limits(table, text) {
  for (const [word, name, low, high] of fields_of(text)) {
    const field = word === 'limit' && table.fields.find((one) => one.name === name);
    if (field) field.limit = { low: Number(low), high: Number(high), words: `${low} to ${high}`, low_word: low, high_word: high };
  }
}

// The values of a packet of the table as they stand there.
export function cells_of(table, t) {
  return new Reader(table.bytes, table.line[t]).line().split(',').slice(1);
}

// Between the numbers of packets and their places in a recording: of some runs those that are written are there, one after the other.
export class Places {
  constructor(runs) {
    this.runs = runs;
    this.before = new Float64Array(runs.size + 1);
    for (let run = 0; run < runs.size; run += 1) {
      this.before[run + 1] = this.before[run] + (runs.kind[run] === WRITTEN ? runs.last(run) - runs.first[run] + 1 : 0);
    }
  }

  // How many written packets have a lesser number.
  written_before(number) {
    const { runs } = this;
    if (runs.size === 0 || number <= 0) return 0;
    if (number >= runs.total) return this.before[runs.size];
    const run = runs.place_of(number);
    return this.before[run] + (runs.kind[run] === WRITTEN ? number - runs.first[run] : 0);
  }

  // The place of a packet in the recording, or -1.
  of(number) {
    return number < this.runs.total && this.runs.kind_at(number) === WRITTEN ? this.written_before(number) : -1;
  }

  number_of(place) {
    const run = last_place(this.runs.size, (one) => this.before[one] <= place);
    return this.runs.first[run] + place - this.before[run];
  }
}

// What of a field stands in each column of a picture: the least and the greatest value, the first and the last, and whether one of
// them is out of its limits. If there is room, each packet is a column of its own.
export function columns_of(field, places, span, wide) {
  const each = span.width / wide, columns = [];
  const step = each <= 1 ? 1 : each, start = each <= 1 ? Math.floor(span.first) : span.first;
  for (let low = start; low < span.first + span.width && low < span.total; low += step) {
    const from = places.written_before(Math.ceil(low)), to = places.written_before(Math.min(span.total, Math.ceil(low + step)));
    if (to === from) continue;
    const column = { from: Math.max(0, (low - span.first) / each), to: Math.min(wide, (low + step - span.first) / each), begin: from, end: to };
    columns.push(Object.assign(column, summary_of(field, from, to)));
  }
  return columns;
}

function summary_of({ values, out }, from, to) {
  let low = values[from], high = low, falls = false, rises = false;
  for (let t = from; t < to; t += 1) {
    const value = values[t];
    if (value < low) low = value;
    if (value > high) high = value;
    if (out[t] === BELOW) falls = true;
    else if (out[t] === ABOVE) rises = true;
  }
  return { low, high, first: values[from], last: values[to - 1], is_below: falls, is_above: rises };
}

const MOST_STRETCHES = 500; // of a field are listed

// For each field the stretches of packets, one after the other, in which it is out of its limits on one side: the first and the last packet,
// and the place of the worst value. `count` is how many there are in all.
export function stretches_of(table, places) {
  return table.fields.map((field, column) => {
    const all = field.outside ? stretches_of_field(field, places) : [];
    return { count: all.length, found: all.slice(0, MOST_STRETCHES).map((stretch) => ({ column, ...stretch })) };
  });
}

function stretches_of_field({ values, out }, places) {
  const found = [];
  let open = null;
  for (let t = 0; t < values.length; t += 1) {
    if (out[t] === WITHIN) continue;
    const at = places.number_of(t);
    if (open && open.side === out[t] && open.last + 1 === at) {
      open.last = at;
      if (out[t] === ABOVE ? values[t] > values[open.worst] : values[t] < values[open.worst]) open.worst = t;
    } else {
      open = { side: out[t], first: at, last: at, worst: t };
      found.push(open);
    }
  }
  return found;
}
