// All APIDs of a store in one view: a strip for each whose bits are given.

import { kept_bits, remember_bits } from './memory.js';
import { Later, button, element, fill, part, save, take_choice, take_drops, tell } from './parts.js';
import { Span } from './span.js';
import { zoom_buttons } from './steer.js';
import { why_store } from './store_words.js';
import { LOW_STRIP, Strip } from './strip.js';
import { show_view, views } from './tabs.js';
import { View, name_of } from './view.js';
import { fields_of } from '../data/records.js';
import { FINDINGS, LOST, Runs } from '../data/runs.js';
import { counted, grouped } from '../data/text.js';

const lost_of = ({ told }) => told.counts[LOST].packets;

export class StreamsView extends View {
  constructor() {
    super('streams');
    Object.assign(this, { inputs: new Map(), others: [], strips: [] });
    this.asking = new Later(() => this.run(), 300);
    take_drops(part('streams-drop'), (files) => this.take(files));
    take_choice(part('streams-file'), (files) => this.take(files));
    take_choice(part('streams-text-file'), ([file]) => this.take_text(file));
    part('save-streams').addEventListener('click', () => save('streams.csv', this.text()));
    part('save-streams-report').addEventListener('click', () => save('multi.report.csv', this.shown.report));
    part('save-contents').addEventListener('click', () => save('contents.store', this.shown.contents));
  }

  take(files) {
    return this.ask({ streams: null, count: files.length, kept: kept_bits }, files.slice(0, 1));
  }

  // The bits in the fields, and after them those of APIDs that have no field here.
  text() {
    const given = [...this.inputs].map(([apid, input]) => [apid, input.value]).filter(([, bits]) => bits !== '');
    return [...given, ...this.others].map((row) => `${row}\n`).join('');
  }

  // Takes the bits out of a text of streams, if the program takes it.
  async take_text(file) {
    if (this.asked) await this.ask(this.asked.given, [this.asked.files[0], file]);
    else tell('streams-refusal', 'Choose the store first.');
  }

  async run() {
    const { given, files: [file] } = this.asked;
    if (file === this.judged?.files[0]) await this.ask({ ...given, streams: this.text() }, [file]);
  }

  put_back() {
    const rows = fields_of(this.judged?.streams ?? ''), bits = new Map(rows);
    this.others = rows.filter(([apid]) => !this.inputs.has(apid));
    for (const [apid, input] of this.inputs) input.value = bits.get(apid) ?? '';
  }

  offer({ files: [file], count, apids, most }) {
    this.inputs.clear();
    const rows = most.map(([number, packets]) => {
      const apid = String(number), input = element('input', { inputmode: 'numeric', size: 6, autocomplete: 'off', 'aria-label': `Bits of APID ${apid}`, on_input: () => this.asking.start() });
      this.inputs.set(apid, input);
      return element('tr', {}, element('th', { scope: 'row' }, apid), element('td', { class: 'number' }, grouped(packets)), element('td', {}, input));
    });
    fill(part('streams-apids'), ...rows);
    part('streams-table').hidden = rows.length === 0;
    tell('streams-name', `${name_of(file, count)}: ${counted(apids.length, 'APID', 'APIDs')}${apids.length > most.length ? `, of which the ${most.length} with most packets are listed` : ''}.`);
  }

  // Shows a strip for each stream, or the refusal. A text of streams that is refused is not kept: what is shown of the same store stays.
  show(judged, before) {
    const { status, text, file_of_text, files: [file] } = judged, is_same = before?.files[0] === file;
    if (status && file_of_text && is_same) this.judged = this.asked = before;
    else {
      if (status && file_of_text) judged.streams = '';
      if (!is_same || !before.most) this.offer({ apids: [], most: [], ...judged });
      if (!is_same || !before.most || file_of_text) this.put_back();
      this.draw(judged);
    }
    this.refuse(status, text, file_of_text);
  }

  draw({ status, found: given = [], apids = [], front, shape: others }) {
    const none = apids.length ? 'Give the bits of an APID\'s packets.' : 'No packet is in this store.', found = [...given].sort((one, other) => lost_of(other) - lost_of(one));
    this.strips.forEach((strip) => strip.end());
    this.strips = [];
    fill(part('streams-strips'), ...found.map((stream) => this.stream_box(stream)));
    for (const { apid, bits, told } of found) if (told.end[1]) remember_bits(apid, front, bits);
    fill(part('streams-sum'), status ? 'No picture, until what is refused is mended.' : found.length ? this.sum(found, others) : none);
    for (const id of ['save-streams-report', 'save-contents']) part(id).disabled = found.length === 0;
  }

  // All APIDs together, and which of them lost most: the first one.
  sum(found, others) {
    const written = found.reduce((sum, { told }) => sum + told.end[1], 0), lost = found.reduce((sum, stream) => sum + lost_of(stream), 0), [{ apid }] = found;
    const most = !lost ? '; none is lost' : `; ${grouped(lost)} lost${found.length > 1 ? `, most of them of APID ${apid} (${grouped(lost_of(found[0]))})` : ''}`;
    return `${grouped(written)} packets of ${counted(found.length, 'APID', 'APIDs')} restored${most}${others ? `; ${counted(others, 'packet', 'packets')} of another shape passed over` : ''}.`;
  }

  stream_box({ apid, bits, runs: sent, told }) {
    const { files } = this.judged, runs = Runs.of(sent), [arrived, written] = told.end, span = new Span();
    const bad = FINDINGS.map(({ word }, kind) => ({ word, count: told.counts[kind].packets })).filter(({ count }) => count > 0);
    const sum = `${grouped(written)} of ${counted(runs.total, 'packet', 'packets')} restored; ${grouped(arrived)} arrived${bad.map(({ word, count }) => `, ${grouped(count)} ${word}`).join('')}.`;
    const canvas = element('canvas', { class: 'strip', role: 'slider', tabindex: '0', 'aria-label': `The packets of APID ${apid}` });
    const open = button(`Open APID ${apid}`, () => {
      show_view('store');
      views.store.open(files, bits, apid);
    });
    const head = element('div', { class: 'headline' }, element('p', { class: 'sum' }, element('b', {}, `APID ${apid}: `), sum, ' ', open), zoom_buttons(span, `, APID ${apid}`));
    this.strips.push(new Strip(canvas, span, { form: LOW_STRIP }));
    this.strips.at(-1).show(runs);
    return element('section', { class: 'stream', 'aria-label': `APID ${apid}` }, head, canvas);
  }

  // Marks the field whose row is refused, and says what else is.
  refuse(status, text, file) {
    const row = Number(/ row ([0-9]+) is wrong/.exec(text)?.[1]), inputs = [...this.inputs.values()], wrong = file ? null : inputs.filter((input) => input.value !== '')[row - 1];
    for (const input of inputs) input.setAttribute('aria-invalid', String(input === wrong));
    const in_file = row && file ? `Row ${row} of ${file} is no APID with its bits; nothing of it is taken. ` : '';
    const in_field = wrong ? 'The bits of a packet are a number from 1 to 49,152, digits alone. ' : row ? 'With the APIDs of the opened text that are not listed these are too many: open a shorter one. ' : '';
    const why = in_file || in_field || (why_store(text) && `This store is refused: ${why_store(text)}. `);
    tell('streams-refusal', status ? `${why}${status === 5 ? '' : 'The program says: '}${text}.` : '');
  }
}
