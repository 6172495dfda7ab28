// Runs of packets that have one state, out of a forecast, a listing or a report. A million packets are a few lists of numbers.

import { Reader, last_place } from './text.js';

// What can become of a packet, from the best to the worst: its word, letter, fill, the colour of its letter, and what it means.
// Letters and colours are those of pictures/draw.py.
export const STATES = [
  { word: 'sure', letter: '', fill: '#a6d3f2', ink: '#000000', told: 'restored, whatever values are sent' },
  { word: 'open', letter: '?', fill: '#f5e663', ink: '#000000', told: 'it arrives, and the values sent decide whether it is restored' },
  { word: 'lost', letter: 'L', fill: '#ffffff', ink: '#000000', told: 'no copy of it arrives' },
];
export const FINDINGS = [
  { word: 'written', letter: '', fill: '#a6d3f2', ink: '#000000', told: 'restored' },
  { word: 'lost', letter: 'L', fill: '#ffffff', ink: '#000000', told: 'did not arrive' },
  { word: 'gap', letter: 'G', fill: '#f5e663', ink: '#000000', told: 'more packets before it are missing than its level allows' },
  { word: 'unsynced', letter: 'U', fill: '#e69f00', ink: '#000000', told: 'nothing is known that it builds on' },
  { word: 'early', letter: 'E', fill: '#5b2a6e', ink: '#ffffff', told: 'its data end too early' },
  { word: 'wrong', letter: 'W', fill: '#a63c00', ink: '#ffffff', told: 'its data can\'t be read' },
];
export const [WRITTEN, LOST, GAP, UNSYNCED, EARLY, WRONG] = [0, 1, 2, 3, 4, 5];
export const [SURE, OPEN, GONE] = [0, 1, 2];
export const NO_LEVEL = 255;
const FALL = 8191; // a gap of more packets than that is half a period of the sequence counts
const BLOCK = 64; // so many runs have one sum of what is before them
const with_room = (list, room) => new list.constructor(list.buffer.transfer(room * list.BYTES_PER_ELEMENT));

export class Runs {
  constructor(kinds) {
    this.kinds = kinds;
    this.size = 0;
    this.total = 0; // packets
    this.first = new Float64Array(256);
    this.line = new Float64Array(256); // where its line begins
    this.arrival = new Uint32Array(256); // how many arrivals are before it
    this.kind = new Uint8Array(256);
    this.level = new Uint8Array(256);
    this.value = new Uint32Array(256); // the first wrong bit, the bits of data that end too early, or a level
    this.half = new Uint8Array(256); // 1 if of a written packet the content alone is known, of another one the mask alone
    this.repeats = new Uint32Array(256);
    this.sums = new Float64Array(256 * kinds.length); // how many packets of each kind are before every block of runs
    this.totals = kinds.map(() => 0);
    this.end = null; // the numbers of the last line, if it is there
  }

  // The runs that a worker sent.
  static of(sent) {
    return Object.assign(Object.create(Runs.prototype), sent);
  }

  add(first, last, kind, line = 0, value = 0) {
    if (this.size === this.first.length) this.grow();
    const place = this.size++;
    if (place % BLOCK === 0) this.add_sums(place / BLOCK);
    this.first[place] = first;
    this.kind[place] = kind;
    this.line[place] = line;
    this.level[place] = NO_LEVEL;
    this.value[place] = value;
    this.total = last + 1;
    this.totals[kind] += last - first + 1;
    return place;
  }

  add_sums(block) {
    const kinds = this.kinds.length;
    if ((block + 1) * kinds > this.sums.length) this.sums = with_room(this.sums, 2 * this.sums.length);
    this.sums.set(this.totals, block * kinds);
  }

  grow() {
    for (const name of ['first', 'line', 'arrival', 'kind', 'level', 'value', 'half', 'repeats']) this[name] = with_room(this[name], 2 * this.size);
  }

  last(place) {
    return (place + 1 < this.size ? this.first[place + 1] : this.total) - 1;
  }

  // The place of the run that has the packet of this number.
  place_of(number) {
    return last_place(this.size, (place) => this.first[place] <= number);
  }

  kind_at(number) {
    return this.kind[this.place_of(number)];
  }

  // The first packet of a kind, or -1.
  first_of(kind) {
    const place = this.kind.subarray(0, this.size).indexOf(kind);
    return place < 0 ? -1 : this.first[place];
  }

  // How many packets of each kind have a lesser number; it may be a fraction.
  before(number) {
    const kinds = this.kinds.length, place = this.place_of(number), block = Math.floor(place / BLOCK);
    const counts = this.sums.slice(block * kinds, (block + 1) * kinds);
    for (let run = block * BLOCK; run < place; run += 1) counts[this.kind[run]] += this.first[run + 1] - this.first[run];
    if (this.size) counts[this.kind[place]] += Math.min(number, this.total) - this.first[place];
    return counts;
  }

  // The nearest packet after this one (or before it) that is in another run and not of the best kind, or of the kind `only`; -1 if there is none.
  next_bad(number, way, only = -1) {
    for (let place = this.place_of(number) + way; place >= 0 && place < this.size; place += way) {
      if (only < 0 ? this.kind[place] > 0 : this.kind[place] === only) return this.first[place];
    }
    return -1;
  }
}

// The runs of a forecast, and what its last two lines say.
export function read_forecast(bytes) {
  const runs = new Runs(STATES), reader = new Reader(bytes);
  reader.next_line();
  while (reader.is_digit()) {
    const first = reader.number();
    reader.at += 1;
    const last = reader.number(), letter = bytes[reader.at + 1];
    runs.add(first, last, letter === 115 ? SURE : letter === 111 ? OPEN : GONE);
    reader.next_line();
  }
  runs.gaps = reader.line().split(',').slice(1);
  runs.end = reader.line().split(',').slice(1).map(Number);
  return runs;
}

// What the word of an arrival's line says: its kind, or -1 for a repeat. `written` and `wrong` differ at their third letter.
function finding_at(bytes, at) {
  const letter = bytes[at];
  if (letter === 119) return bytes[at + 2] === 105 ? WRITTEN : WRONG;
  return letter === 103 ? GAP : letter === 117 ? UNSYNCED : letter === 101 ? EARLY : -1;
}

// Whether one half alone is known of the packet in this line: no mask of a written one, or the mask of another.
function is_half_known(bytes, reader, kind) {
  if (kind === WRITTEN) return bytes[bytes.indexOf(32, reader.at + 1) + 1] === 45;
  return (kind === GAP || kind === UNSYNCED) && bytes[reader.at] === 32;
}

// Takes the line of an arrival; a repeat is no run of its own.
function read_arrival(reader, runs, number, line) {
  const { bytes } = reader, kind = finding_at(bytes, reader.at);
  if (kind < 0) {
    runs.repeats[runs.size - 1] += 1;
    return;
  }
  const place = runs.add(number, number, kind, line);
  runs.arrival[place] = runs.arrivals;
  reader.at = kind === UNSYNCED ? reader.at + 8 : bytes.indexOf(32, reader.at) + 1;
  runs.value[place] = kind === UNSYNCED ? 0 : reader.number();
  if (kind === WRITTEN || kind === GAP) runs.level[place] = runs.value[place];
  runs.half[place] = Number(is_half_known(bytes, reader, kind));
}

// The runs of a listing: a run for each arrival and for each range of lost packets. `falls` tells how often the sequence counts fall back:
// packets came in another order than they were sent, and of two one after the other the second one was taken for one far on.
export function read_listing(bytes) {
  const runs = Object.assign(new Runs(FINDINGS), { arrivals: 0, falls: 0 }), reader = new Reader(bytes);
  while (reader.is_digit()) {
    const line = reader.at, number = reader.number();
    const is_range = bytes[reader.at] === 45;
    reader.at += 1;
    if (is_range) {
      const last = reader.number();
      if (runs.arrivals && last - number >= FALL) runs.falls += 1;
      runs.add(number, last, LOST, line);
    } else {
      read_arrival(reader, runs, number, line);
      runs.arrivals += 1;
    }
    reader.next_line();
  }
  if (reader.at < bytes.length) runs.end = reader.line().split(' ').slice(1).map(Number);
  return runs;
}
