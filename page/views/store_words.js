// What became of the packets of a store, in words.

import { EARLY, LOST, UNSYNCED, WRONG } from '../data/runs.js';
import { counted, grouped, range_words } from '../data/text.js';

export const WHAT_TO_DO = {
  lost: 'Look for it in another record of the pass. If more are lost in a row than the sender\'s robust says, raise it.',
  gap: 'More packets before it are missing than its level allows. As for lost; the sender can raise robust, or send mask and whole content more often.',
  unsynced: 'Nothing is known that it builds on, as when a store begins in the middle of a stream. The next packet with whole content is written.',
  wrong: 'Damaged, of another sender, or of another number of bits. A single one counts as lost; if all are wrong, bits or APID is not the sender\'s.',
  early: 'Damaged, of another sender, or of another number of bits. A single one counts as lost.',
};

const WHY_STORE = [
  [' is cut', 'the store ends inside the packet that begins there'],
  [' another version', 'the bytes there are no Space Packet\'s'],
  [' another shape', 'the packet there is a telecommand, has a secondary header or is segmented'],
];
const DISORDER = 'packets came in another order than they were sent, and each of these is taken for one 16,384 further on. Put them in order by late.';
const NOT_THE_SENDERS = 'the bits of a packet, or the APID, may not be the sender\'s.';
const NEARLY = 0.9; // of those that arrived

export const why_store = (text) => (WHY_STORE.find(([words]) => text.includes(words)) || ['', ''])[1];

// A packet in words. After `late` there is no level, since the report tells none.
export function packet_words(runs, verb, at) {
  const place = runs.place_of(at), name = `packet ${grouped(at)}`, kind = runs.kinds[runs.kind[place]].word, value = grouped(runs.value[place]);
  const again = runs.repeats[place] ? `, repeated ${runs.repeats[place] === 1 ? 'once' : `${runs.repeats[place]} times`}` : '';
  if (kind === 'lost') {
    const [first, last] = [runs.first[place], runs.last(place)];
    return `${name} is lost: it did not arrive${last > first ? `, as ${range_words(first, last)}` : ''}`;
  }
  if (kind === 'wrong') return `${name} is wrong: its data can't be read from bit ${value} on${again}`;
  if (kind === 'early') return `${name} is early: its data, of ${value} bits, end too early${again}`;
  const half = runs.half[place] ? (kind === 'written' ? ', its mask is not known' : ', its mask is known') : '';
  if (kind === 'unsynced') return `${name} is unsynced: it arrived, and nothing is known that it builds on${half}${again}`;
  if (kind === 'gap') return `${name} is in a gap: more packets before it are missing than its level, ${value}, allows${half}${again}`;
  return verb === 'late' ? `${name} is written` : `${name} is written, level ${value}${half}${again}`;
}

// What is likely wrong with a store or the values as a whole, or nothing.
export function store_warning({ runs, window, told }) {
  const arrived = runs.total - runs.totals[LOST], odd = runs.totals[WRONG] + runs.totals[UNSYNCED] + runs.totals[EARLY];
  if (runs.total === 0) return 'No packet of this store has this APID.';
  if (runs.totals[0] === 0) return `Nothing is restored: ${NOT_THE_SENDERS}`;
  if (odd >= NEARLY * arrived) return `Nearly all that arrived are wrong or unsynced: ${NOT_THE_SENDERS}`;
  if (runs.falls) return `The sequence counts fall back at ${counted(runs.falls, 'packet', 'packets')}: ${DISORDER}`;
  if (!told.late) return '';
  return `${counted(told.late, 'packet', 'packets')} came too late for a window of ${window} and ${told.late === 1 ? 'is' : 'are'} left out${Number(window) < 64 ? ': a wider one may take them' : ''}.`;
}
