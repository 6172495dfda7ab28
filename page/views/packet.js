// What a store, its listing and its recording have of one packet: its place, its vectors, its bits.

import { bit_at, bit_table, from_hex, hex_words, ones_words, to_hex, wrong_table } from './bits.js';
import { element, fill } from './parts.js';
import { WHAT_TO_DO, packet_words } from './store_words.js';
import { packet_length } from '../data/space.js';
import { Places } from '../data/table.js';
import { Reader, counted, grouped, sentence } from '../data/text.js';

const HEADER = 6, MOST_DATA = 65536;

const fact_list = (facts) => element('dl', { class: 'facts' }, ...facts.flatMap(([name, told]) => [element('dt', {}, name), element('dd', {}, told)]));

export class PacketDetails {
  constructor(box) {
    Object.assign(this, { box, shown: null, words: '', turn: 0, done: null });
  }

  // Shows a packet of what the store view shows, or nothing. What is read of the file comes after its words; `done` says when.
  show(shown, at) {
    const words = shown ? packet_words(shown.runs, shown.verb, at) : '';
    if (this.shown === shown && this.words === words) return;
    Object.assign(this, { shown, words });
    this.turn += 1;
    if (!shown) {
      fill(this.box);
      return;
    }
    const place = shown.runs.place_of(at), kind = shown.runs.kinds[shown.runs.kind[place]].word;
    const front = [element('p', { class: 'state' }, sentence(words)), ...(WHAT_TO_DO[kind] ? [element('p', { class: 'hint' }, WHAT_TO_DO[kind])] : [])];
    if (shown.verb === 'late') fill(this.box, ...front, ...restored_details(shown, at, kind));
    else if (kind === 'lost') fill(this.box, ...front);
    else this.done = this.read(shown, place, kind, front, this.turn);
  }

  async read(shown, place, kind, front, turn) {
    const start = shown.places[shown.runs.arrival[place]];
    let details;
    try {
      const bytes = new Uint8Array(await shown.files[0].slice(start, start + HEADER + MOST_DATA).arrayBuffer());
      details = arrival_details(shown, place, kind, start, bytes.subarray(0, packet_length(bytes, 0)));
    } catch (fault) {
      details = [element('p', { class: 'hint' }, `The file can't be read any more: ${fault.message}`)];
    }
    if (turn !== this.turn) return;
    fill(this.box, ...front, ...details);
    const wrong = this.box.querySelector('.first-wrong'), bits = wrong?.closest('.bits');
    bits?.scrollTo(wrong.offsetLeft - bits.clientWidth / 2, wrong.offsetTop - bits.clientHeight / 2);
  }
}

// The content of a packet that was put in order, out of the recording.
function restored_details({ runs, recording, bits }, at, kind) {
  if (kind !== 'written') return [];
  const size = Math.ceil(Number(bits) / 8), place = new Places(runs).of(at), content = recording.subarray(place * size, (place + 1) * size);
  const facts = [['in the recording', `place ${grouped(place)}`], ['content', hex_words(content)]];
  return [fact_list(facts), bit_table(content, Number(bits))];
}

// What the listing and the store have of an arrival. `packet` are its bytes, which begin in the store at `start`.
function arrival_details({ listing, runs, bits }, place, kind, start, packet) {
  const cells = new Reader(listing, runs.line[place]).line().split(' '), data = packet.subarray(HEADER);
  const span = `bytes ${grouped(start)} to ${grouped(start + packet.length - 1)}`, header = to_hex(packet.subarray(0, HEADER));
  const facts = [['in the store', `${span}: a header of 6 bytes, ${header}, and ${counted(data.length, 'byte', 'bytes')} of data`]];
  if (kind === 'written') return written_details(cells, facts, data, Number(bits));
  if (kind === 'wrong') {
    const wrong = Number(cells[2]), byte = wrong >> 3;
    const where = `bit ${wrong & 7} of the data's byte ${grouped(byte)}, which is byte ${grouped(start + HEADER + byte)} of the store`;
    facts.push(['first wrong bit', `bit ${grouped(wrong)} of its data: ${where} (all counted from 0)`]);
    return [fact_list(facts), wrong_table(data, wrong)];
  }
  const mask = cells.indexOf('mask');
  if (mask > 0) facts.push(['mask', hex_words(from_hex(cells[mask + 1]))]);
  return [fact_list(facts), bit_table(data, 8 * data.length)];
}

function written_details([, , level, changes, mask, content], facts, data, bits) {
  const known = mask === '-' ? null : from_hex(mask), [recent, vector] = [changes, content].map(from_hex);
  facts.push(['level', `${level}: so many packets before it could be missing`], ['content', hex_words(vector)]);
  facts.push(['mask', known ? `${hex_words(known)} (not predictable: ${ones_words(known)})` : 'not known']);
  facts.push(['recent changes', `${hex_words(recent)} (${ones_words(recent)})`], ['data', hex_words(data)]);
  const bit = (kind) => element('span', { class: 'bits' }, element('span', { class: kind }, '1'));
  const key = element('p', { class: 'hint' }, 'The content, bit by bit. ', bit('mask'), ' in the mask: not predictable; ', bit('change'), ' its mask changed lately.');
  const kind_of = (place) => `${known && bit_at(known, place) ? 'mask' : ''} ${bit_at(recent, place) ? 'change' : ''}`.trim();
  return [fact_list(facts), key, bit_table(vector, bits, kind_of)];
}
