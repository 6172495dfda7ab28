// After a pass: what became of the packets of a store.

import { kept_bits, remember_bits } from './memory.js';
import { PacketDetails } from './packet.js';
import { Later, button, element, fill, part, refuse_value, save, take_choice, take_drops, tell } from './parts.js';
import { Span } from './span.js';
import { zoom_buttons } from './steer.js';
import { store_warning, why_store } from './store_words.js';
import { Strip, fill_legend } from './strip.js';
import { report_table } from './tables.js';
import { show_view, views } from './tabs.js';
import { View, name_of } from './view.js';
import { EARLY, LOST, WRITTEN, WRONG } from '../data/runs.js';
import { counted, grouped } from '../data/text.js';

const MOST_WRONG = 8; // packets that are named at once
const MOST_LOSSES = 20000; // stretches that a forecast is given
const IS_LOSS = new Set([LOST, EARLY, WRONG]); // for a forecast: what is damaged counts as lost

export class StoreView extends View {
  constructor() {
    super('store');
    Object.assign(this, { span: new Span(), typed: new Set() });
    this.asking = new Later(() => this.run(), 150);
    this.strip = new Strip(part('store-strip'), this.span);
    this.strip.clear('no store yet');
    this.details = new PacketDetails(part('store-words'));
    part('store-zoom').append(zoom_buttons(this.span));
    this.span.watch(() => this.point());
    this.listen();
  }

  listen() {
    take_drops(part('store-drop'), (files) => this.take(files));
    take_choice(part('store-file'), (files) => this.take(files));
    for (const id of ['store-bits', 'store-apid', 'store-window']) {
      part(id).addEventListener('input', () => {
        this.typed.add(id);
        this.asking.start();
      });
    }
    const acts = {
      'store-example': () => this.open([], '64', '100'),
      'save-report': () => save(`${this.shown.verb}.report.csv`, this.shown.report),
      'save-recording': () => save('restored.rec', this.shown.recording),
      'to-fields': () => this.to_fields(),
      'to-forecast': () => this.to_forecast(),
      'to-streams': () => this.to_streams(),
      'use-late': () => this.run({ verb: 'late' }),
      'use-restore': () => this.run({ verb: 'restore' }),
    };
    for (const [id, act] of Object.entries(acts)) part(id).addEventListener('click', act);
  }

  // What was typed in a field since it was judged, or else this value.
  value_of(name, value) {
    return this.typed.has(`store-${name}`) ? part(`store-${name}`).value : value;
  }

  take(files) {
    return this.open(files, this.value_of('bits', null) || null, this.value_of('apid', null) || null);
  }

  // Looks at another store, or at the example. Without an APID that with most packets is taken; without bits those that are known of it.
  open(files, bits, apid) {
    return this.ask({ bits, apid, verb: 'restore', window: part('store-window').value, count: files.length, kept: kept_bits }, files.slice(0, 1));
  }

  // Has the store judged again, as it is asked for now. The bits of another APID are not taken over.
  async run(change = {}) {
    if (!this.asked) return;
    const { given, files, apid: before = given.apid, bits = given.bits } = this.asked, apid = this.value_of('apid', before);
    await this.ask({ ...given, apid, bits: this.value_of('bits', apid === before ? bits : null), window: part('store-window').value, ...change }, files);
  }

  // Puts what was judged into the fields. Bits that gave nothing back count as typed for the next store, too.
  put_back(typed = []) {
    if (!this.judged) return;
    const { bits, apid, window } = this.judged;
    this.typed = new Set(typed);
    for (const [id, value] of Object.entries({ 'store-bits': bits ?? '', 'store-apid': apid ?? '', 'store-window': window })) {
      if (part(id).value !== value) part(id).value = value;
    }
  }

  // Shows what was answered, or the refusal; what is refused leaves no picture. Bits that gave packets back are remembered.
  show(judged, before) {
    const { shown } = this;
    if (!this.asking.timer) this.put_back(shown?.runs.totals[WRITTEN] || !judged.bits ? [] : ['store-bits']);
    this.tell_file(judged);
    this.refuse(judged);
    part('store-report-card').hidden = !shown;
    part('use-restore').hidden = judged.verb !== 'late';
    if (shown) {
      if (shown.runs.totals[WRITTEN]) remember_bits(shown.apid, shown.front, shown.bits);
      this.strip.show(shown.runs);
      fill(part('store-report'), report_table(shown.told, (at) => this.go(at)));
      fill(part('report-title'), shown.verb === 'late' ? 'Its report, after the packets were put in order' : 'Its report');
      if (before?.status !== 0 || before.files[0] !== shown.files[0] || before.apid !== shown.apid) this.begin();
    } else {
      this.strip.clear(judged.bits === '' ? 'the bits of a packet are to be given' : judged.status === 2 ? 'a number is refused' : judged.text);
    }
    this.sum();
    this.point();
  }

  tell_file({ files: [file], count, apids = [] }) {
    fill(part('store-name'), file ? `${name_of(file, count)}: ${counted(file.size, 'byte', 'bytes')}, ${counted(apids.length, 'APID', 'APIDs')}.` : '');
    fill(part('store-apids'), ...apids.map(([value]) => element('option', { value })));
    const most = 12, more = apids.length > most ? [` and ${grouped(apids.length - most)} more`] : [], { files } = this.judged;
    const offers = apids.slice(0, most).map(([apid, packets]) => button(`${apid} (${counted(packets, 'packet', 'packets')})`, () => this.open(files, null, String(apid))));
    fill(part('store-offers'), ...(apids.length > 1 ? ['APIDs in it: ', ...offers, ...more] : []));
    part('to-streams').hidden = apids.length < 2;
  }

  // Chooses the first packet that is wrong, or else the first one that is not written.
  begin() {
    const { runs } = this, at = runs.totals[WRONG] ? runs.first_of(WRONG) : runs.size && runs.kind[0] ? 0 : runs.next_bad(0, 1);
    if (at >= 0) this.span.go(at);
  }

  // Each refusal at what it is of; beside that of a store a button that looks at what is before the fault.
  refuse({ status, text, bits, apid, files: [file] }) {
    const wanted = bits === '' ? 'How many bits has a packet? The sender knows: from 1 to 49,152.' : 'A number from 1 to 49,152, digits alone.';
    refuse_value(part('store-bits'), text === 'word 2 is wrong' ? wanted : '');
    refuse_value(part('store-apid'), text === 'word 3 is wrong' ? 'A number from 0 to 2046, digits alone.' : '');
    refuse_value(part('store-window'), text === 'word 6 is wrong' ? 'A number from 0 to 64, digits alone.' : '');
    const box = part('store-refusal'), why = why_store(text);
    box.hidden = status === 0 || status === 2;
    fill(box, why ? `This store is refused: ${why}. ` : '', element('span', { class: 'program' }, status === 4 ? `The program says: ${text}. ` : `${text}. `));
    const bytes = Number(/ at byte ([0-9]+)/.exec(text)?.[1]), front = () => new File([file.slice(0, bytes)], `${file.name}, its first ${grouped(bytes)} bytes`);
    if (bytes > 0) box.append(button(`Look at the ${grouped(bytes)} bytes before it`, () => this.open([front()], bits, apid)));
  }

  sum() {
    const { shown } = this, runs = shown && shown.runs;
    fill_legend(part('store-legend'), runs, this.strip);
    fill(part('store-wrong'), ...(runs ? this.wrong_ones(runs) : []));
    tell('store-warning', shown ? store_warning(shown) : '');
    if (!shown) {
      fill(part('store-sum'), this.judged ? 'No picture, until what is refused is mended.' : 'No store yet.');
      return;
    }
    const [arrived, written, repeats] = shown.told.end, order = shown.verb === 'late' ? `, put in order by late with a window of ${shown.window}` : '';
    fill(part('store-sum'), element('b', {}, `${grouped(written)} of ${counted(runs.total, 'packet', 'packets')} restored`),
      `; ${grouped(arrived)} arrived${repeats ? `, ${counted(repeats, 'repeat', 'repeats')} among them` : ''}${order}.`);
  }

  // The wrong packets, each with its first wrong bit, of many the first ones.
  wrong_ones(runs) {
    const found = [];
    for (let place = 0; place < runs.size && found.length < MOST_WRONG; place += 1) {
      if (runs.kind[place] === WRONG) found.push(button(`${grouped(runs.first[place])} from bit ${grouped(runs.value[place])}`, () => this.go(runs.first[place])));
    }
    return found.length ? ['Wrong: ', ...found, ...(runs.totals[WRONG] > found.length ? [` and ${grouped(runs.totals[WRONG] - found.length)} more`] : [])] : [];
  }

  point() {
    this.details.show(this.runs?.total ? this.shown : null, this.span.at);
  }

  // The losses of the report, with what is damaged, as the script of a forecast, of so many packets as it tells of.
  to_forecast() {
    const { runs } = this, lost = [];
    for (let place = 0; place < runs.size; place += 1) {
      if (!IS_LOSS.has(runs.kind[place])) continue;
      if (lost.at(-1)?.[1] === runs.first[place] - 1) lost.at(-1)[1] = runs.last(place);
      else lost.push([runs.first[place], runs.last(place)]);
    }
    if (lost.length > MOST_LOSSES) {
      tell('store-warning', `It lost packets in ${grouped(lost.length)} stretches: too many rows for a forecast on this page.`);
      return;
    }
    show_view('forecast');
    views.forecast.put_losses(runs.total, lost.map(([first, last]) => `drop,${first},${last},1\n`).join(''));
  }

  to_streams() {
    show_view('streams');
    views.streams.take(this.judged.files);
  }

  to_fields() {
    const { recording, report, bits, files: [file] } = this.shown, name = `the restored packets of ${file.name}`;
    show_view('fields');
    views.fields.open(new File([recording], name), bits, new File([report], `the report of ${name}`));
  }
}
