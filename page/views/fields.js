// The numbers in a recording: its fields over the packets' numbers, with their limits.

import { Chooser } from './chooser.js';
import { Curve } from './curve.js';
import { page_unit } from './paint.js';
import { Later, element, fill, part, refuse_value, save, take_choice, take_drops, tell } from './parts.js';
import { Rows } from './rows.js';
import { NO_UNIT, read_units, value_words } from './scale.js';
import { Span } from './span.js';
import { zoom_buttons } from './steer.js';
import { LOW_STRIP, Strip, fill_legend } from './strip.js';
import { stretch_table, table_of } from './tables.js';
import { TimeAxis } from './time_axis.js';
import { View, name_of } from './view.js';
import { EXAMPLE_FIELDS } from '../data/example.js';
import { Places, cells_of } from '../data/table.js';
import { counted, grouped } from '../data/text.js';

const [LEAST_HEIGHT, MOST_HEIGHT, HEAD] = [46, 110, 19]; // of a curve, and what stands above each

export class FieldsView extends View {
  constructor() {
    super('recording', 'fields');
    Object.assign(this, { span: new Span(), curves: [], units: new Map() });
    this.asking = new Later(() => this.run(), 200);
    this.rows = new Rows('fields', 'fields', () => this.asking.start());
    this.unit_rows = new Rows('units', 'units', () => this.take_units());
    this.chooser = new Chooser(() => this.draw_curves());
    this.axis = new TimeAxis(() => this.change_axis());
    this.strip = new Strip(part('fields-strip'), this.span, { form: LOW_STRIP, leap: (way) => this.leap(way), note: (at) => this.note(at) });
    this.strip.clear('no recording yet');
    part('fields-zoom').append(zoom_buttons(this.span));
    this.span.watch(() => this.point());
    this.listen();
  }

  listen() {
    take_drops(part('fields-drop'), (files) => this.take(files));
    take_choice(part('recording-file'), (files) => this.take(files));
    take_choice(part('report-file'), ([file]) => this.take([file], 'report'));
    part('fields-bits').addEventListener('input', () => this.asking.start());
    part('fields-example').addEventListener('click', () => this.ask({ roles: ['recording', 'report'], bits: '64', fields: EXAMPLE_FIELDS }, []));
    part('drop-report').addEventListener('click', () => this.open(this.judged.file, this.judged.bits, null));
    part('save-table').addEventListener('click', () => save('table.csv', this.shown.table.bytes));
    part('save-outside').addEventListener('click', () => save('limits.csv', this.shown.outside));
  }

  // Takes files beside those that are there: as one of `role`, or by what they hold.
  take(files, role = null) {
    const { files: there, given: { roles } } = this.asked ?? { files: [], given: { roles: [] } };
    return this.judge([...there, ...files], [...there.map((_, place) => roles[place] ?? null), ...files.map(() => role)]);
  }

  // Looks at another recording; its report is a file too, or null.
  open(file, bits, report) {
    part('fields-bits').value = bits;
    return this.judge(report ? [file, report] : [file], ['recording', 'report']);
  }

  async run() {
    if (this.asked?.files.length) await this.judge(this.asked.files, this.asked.given.roles);
  }

  judge(files, roles) {
    return this.ask({ roles, bits: part('fields-bits').value, fields: this.rows.text }, files);
  }

  put_back() {
    if (!this.judged) return;
    const { bits = '', fields = '' } = this.judged;
    part('fields-bits').value = bits;
    this.rows.text = fields;
  }

  // Of the files the recording and its report are kept; a fault doesn't tell which they are, and leaves those of before. Gives how many came.
  keep_files(judged, before) {
    const { files, given: { roles }, recording = 0, report = -1 } = judged, is_fault = judged.recording === undefined && before?.files.length > 0;
    const [file, report_file] = is_fault ? [before.file, before.report_file] : [files[recording], files[report]];
    Object.assign(judged, { file, report_file, files: [file, report_file].filter(Boolean) });
    judged.given = { ...judged.given, roles: file ? ['recording', 'kept'] : ['report'] };
    return is_fault ? 0 : files.filter((_, place) => !roles[place]).length;
  }

  // Shows a table, or its refusal.
  show(judged, before) {
    const { status, text } = judged, fault = this.refuse(judged, judged.bits), count = this.keep_files(judged, before), { file, report_file } = judged;
    if (!this.asking.timer) this.put_back();
    this.sum();
    tell('fields-refusal', status === 2 || status === 3 ? '' : fault);
    if (this.table) {
      this.places = new Places(this.runs);
      this.chooser.show(this.table.fields);
      this.axis.show(this.table.fields);
      this.strip.axis_words = this.axis.words(this);
      this.strip.show(this.runs);
    } else {
      this.chooser.show([]);
      this.strip.clear(status === 0 ? 'no recording yet' : status === 2 ? 'a number is refused' : text);
    }
    this.draw_curves();
    tell('recording-name', file ? `${name_of(file, count)}: ${counted(file.size, 'byte', 'bytes')}${report_file ? ', with its report' : ''}.` : '');
    part('drop-report').hidden = !report_file;
    part('fields-example-mark').hidden = judged.fields !== EXAMPLE_FIELDS;
    for (const id of ['save-table', 'save-outside']) part(id).disabled = !this.table;
    this.point();
  }

  get table() {
    return this.shown?.table;
  }

  // Each refusal at what it is of; gives its words, or nothing.
  refuse({ status, text }, bits) {
    const wanted = bits ? 'A number from 1 to 49,152, digits alone.' : 'How many bits has a packet? From 1 to 49,152.';
    refuse_value(part('fields-bits'), text === 'word 5 is wrong' ? wanted : '');
    this.rows.refuse(status === 3 ? text : '');
    return status === 4 ? `This is no recording of packets of ${bits} bits: ${text}.` : text;
  }

  draw_curves() {
    for (const curve of this.curves) curve.end();
    const shown = this.table ? this.chooser.shown() : [], height = this.curve_height(shown.length);
    this.curves = shown.map((field) => new Curve(this, field, height));
    fill(part('curves'), ...this.curves.map((curve) => curve.box));
    this.curves.forEach((curve) => curve.change());
    fill(part('fields-stretches'), ...(this.table ? stretch_table(this, shown, (at) => this.go(at)) : []));
  }

  // So high that up to eight curves are in sight at once.
  curve_height(count) {
    const above = part('curves').getBoundingClientRect().top + window.scrollY, room = (window.innerHeight - above - 12) / page_unit();
    return Math.max(LEAST_HEIGHT, Math.min(MOST_HEIGHT, Math.floor(room / Math.min(8, Math.max(1, count))) - HEAD));
  }

  take_units() {
    const { units, wrong } = read_units(this.unit_rows.text);
    this.units = units;
    refuse_value(part('units'), wrong ? `Row ${wrong} is not a field with its unit: name,unit,scale, or name,unit,scale,offset; scale and offset are numbers.` : '');
    this.change_axis();
  }

  change_axis() {
    if (!this.table) return;
    this.strip.axis_words = this.axis.words(this);
    this.strip.change();
    this.point();
  }

  unit_of(field) {
    return this.units.get(field.name) ?? NO_UNIT;
  }

  sum() {
    const { table, runs } = this;
    fill_legend(part('fields-legend'), table && this.shown.report_file ? runs : null, this.strip);
    if (!table) {
      fill(part('fields-sum'), this.judged?.file ? 'No picture, until what is refused is mended.' : 'No recording yet.');
      return;
    }
    const outside = table.fields.reduce((sum, field) => sum + field.outside, 0), missing = runs.total - table.count, has_limits = table.fields.some((field) => field.limit);
    const all = `${counted(table.count, 'packet', 'packets')} with ${counted(table.fields.length, 'field', 'fields')}`;
    const out = !has_limits ? 'no limits are given' : outside ? `${counted(outside, 'value is', 'values are')} out of limits` : 'no value is out of limits';
    const gaps = missing ? `; ${counted(missing, 'packet is', 'packets are')} missing` : '';
    fill(part('fields-sum'), element('b', {}, all), `; ${out}${gaps}.`);
  }

  // The next packet in which a field that is drawn is out of its limits, or -1.
  leap(way) {
    if (!this.table) return -1;
    const { places, span, shown: { any } } = this, drawn = this.chooser.shown();
    let t = way > 0 ? places.written_before(span.at + 1) : places.written_before(span.at) - 1;
    while (t >= 0 && t < any.length && !(any[t] && drawn.some((field) => field.out[t]))) t += way;
    return t >= 0 && t < any.length ? places.number_of(t) : -1;
  }

  value_words(field, at) {
    const t = this.table ? this.places.of(at) : -1, { limit, name } = field;
    if (t < 0) return `${name} is not there`;
    const cell = cells_of(this.table, t)[this.table.fields.indexOf(field)], out = ['', `, below its limit ${limit?.low_word}`, `, above its limit ${limit?.high_word}`];
    return `${name} is ${value_words(this.unit_of(field), cell)}${out[field.out[t]]}`;
  }

  // How many values of a packet are out of limits.
  note(at) {
    const t = this.places.of(at), out = t < 0 ? 0 : this.table.fields.filter((field) => field.out[t]).length;
    return out ? `, ${counted(out, 'value', 'values')} out of limits` : '';
  }

  value_row(field, t, cell) {
    return element('tr', {}, element('th', { scope: 'row' }, field.name), element('td', { class: field.out[t] ? 'number out' : 'number' }, value_words(this.unit_of(field), cell)),
      element('td', {}, field.limit ? field.limit.words : '–'), element('td', { class: 'out' }, ['', 'below', 'above'][field.out[t]]));
  }

  point() {
    for (const curve of this.curves) curve.change();
    const box = part('fields-words'), { table, runs } = this;
    if (!table || table.count === 0) {
      fill(box);
      return;
    }
    const { at } = this.span, t = this.places.of(at), time = this.strip.axis_words ? `, ${this.strip.axis_words(at)}` : '';
    if (t < 0) {
      fill(box, element('p', { class: 'state' }, `Packet ${grouped(at)} is ${runs.kinds[runs.kind_at(at)].word}: it is not in the recording.`));
      return;
    }
    const cells = cells_of(table, t), place = this.shown.report_file ? `, at place ${grouped(t)} of the recording` : '';
    const fields = this.chooser.fields.map((field) => this.value_row(field, t, cells[table.fields.indexOf(field)]));
    fill(box, element('p', { class: 'state' }, `Packet ${grouped(at)}${time}${place}.`), table_of('The values of the packet', ['field', 'value', 'limits', ''], fields));
  }
}
