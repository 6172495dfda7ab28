// Side texts that are typed: a text area with the numbers of its lines, at which a refusal stands at its row; opened from a file and saved.

import { page_unit } from './paint.js';
import { button, element, fill, part, refuse_value, save, take_choice, take_drops } from './parts.js';
import { WHY_ROW } from './why_row.js';
import { cells_in, records_of, with_rows } from '../data/records.js';
import { grouped } from '../data/text.js';

const line_height = () => 20 * page_unit();
const MOST_TEXT = 8e6; // bytes of a text that is typed
const MOST_LINES = 500; // in the text area at once, for a browser lays all of them out in one task

const KINDS = {
  schedule: { name: 'the schedule', row: 'a row of a schedule', file: 'schedule.csv' },
  script: { name: 'the losses', row: 'a row of the losses', file: 'losses.csv' },
  fields: { name: 'the fields', row: 'a field or a limit', file: 'fields.csv' },
  units: { name: 'the units', row: 'a field with its unit', file: 'units.csv' },
};

export class Rows {
  // `id` is that of the text area, `kind` one of KINDS; `typed` is called when the text changes. The text area has a page of the text, which
  // stands between `above` and `below`; its first line is the line `first` of the text, from 0.
  constructor(id, kind, typed) {
    const box = part(`${id}-box`), head = box.querySelector('h2');
    const about = { wrap: 'off', spellcheck: 'false', autocomplete: 'off', 'aria-describedby': `${id}-text-refusal` };
    Object.assign(this, { kind, typed, wrong: null, above: '', below: '', first: 0, count: 1, gutter: element('div', { class: 'gutter', 'aria-hidden': 'true' }) });
    this.area = element('textarea', { id, rows: box.dataset.rows, ...about, on_input: () => this.changed(), on_scroll: () => this.number_lines() });
    take_drops(box, (files) => this.open(files[0]));
    new ResizeObserver(() => this.number_lines()).observe(this.area);
    this.seen = element('span', { role: 'status' });
    const turn = (words, line_of) => button(words, () => this.turn_to(line_of()), { 'aria-label': `${words} of ${KINDS[kind].name}` });
    this.pages = element('p', { class: 'hint', hidden: '' }, this.seen, ' ', turn('Earlier lines', () => this.first - 1), ' ', turn('Later lines', () => this.first + this.count));
    head.replaceWith(element('div', { class: 'head' }, element('h2', {}, element('label', { for: id }, head.textContent)), this.buttons(`${id}-file`)));
    box.append(element('div', { class: 'editor' }, this.gutter, this.area), this.pages);
  }

  // What opens the text from a file, and saves it.
  buttons(id) {
    const { name, file } = KINDS[this.kind], chooser = element('input', { type: 'file', id, class: 'unseen', 'aria-label': `Open ${name} from a file` });
    take_choice(chooser, (files) => this.open(files[0]));
    return element('span', { class: 'files' }, element('label', { class: 'button plain', for: id }, 'Open'), chooser, ' ', button('Save', () => save(file, this.text), { 'aria-label': `Save ${name}` }));
  }

  // Takes the text of a file, unless another one was opened or something typed meanwhile.
  async open(file) {
    const before = this.text, turn = this.turn = {};
    let text = '', fault = file.size > MOST_TEXT ? `The file ${file.name} has ${Math.ceil(file.size / 1e6)} MB, too much for a text that is typed.` : '';
    try {
      text = fault || await file.text();
    } catch ({ message }) {
      fault = `The file ${file.name} can't be read: ${message}`;
    }
    if (turn !== this.turn) return;
    if (fault) refuse_value(this.area, fault);
    else if (before === this.text) Object.assign(this, { text }).typed();
  }

  changed() {
    this.count_lines();
    this.typed();
  }

  get text() {
    return this.above + this.area.value + this.below;
  }

  set text(text) {
    const lines = text.replace(/\r\n?/g, '\n');
    if (lines !== this.text) this.turn_to(0, lines);
  }

  // Has the text area show the page that has this line, or the first or the last one. An empty line at the end is no page of its own.
  turn_to(line, text = this.text) {
    const lines = text.split('\n'), last = lines.length - 1, at = Math.max(0, Math.min(line, last - 1)), first = at - (at % MOST_LINES);
    const end = first + MOST_LINES < last ? first + MOST_LINES : lines.length;
    const joined = (from, to) => lines.slice(from, to).join('\n');
    Object.assign(this, { first, above: first ? `${joined(0, first)}\n` : '', below: end < lines.length ? `\n${joined(end)}` : '' });
    this.area.value = joined(first, end);
    this.area.scrollTop = 0;
    this.count_lines();
  }

  add(rows) {
    this.turn_to(Infinity, with_rows(this.text, rows));
    this.area.scrollTop = this.area.scrollHeight;
  }

  count_lines() {
    const count = this.area.value.split('\n').length, all = this.first + count + this.below.split('\n').length - 1;
    this.count = count;
    this.pages.hidden = count === all;
    fill(this.seen, `Lines ${grouped(this.first + 1)} to ${grouped(this.first + count)} of ${grouped(all)}`);
    this.number_lines();
  }

  number_lines() {
    const { scrollTop, clientHeight } = this.area, line_high = line_height(), first = Math.floor(scrollTop / line_high), rows = element('div');
    const last = this.first + Math.min(this.count, first + Math.ceil(clientHeight / line_high) + 1);
    for (let line = this.first + first; line < last; line += 1) {
      const is_wrong = this.wrong && line >= this.wrong.first && line <= this.wrong.last;
      rows.append(is_wrong ? element('span', { class: 'wrong' }, `✗ ${line + 1}`) : element('span', {}, `${line + 1}`));
    }
    rows.style.transform = `translateY(${-(scrollTop - first * line_high)}px)`;
    fill(this.gutter, rows);
  }

  // Puts a refusal at its row, or takes it away. `told` is the program's text.
  refuse(told) {
    const found = / row ([0-9]+) is wrong/.exec(told), { text } = this;
    this.wrong = found && text ? records_of(text)[Number(found[1]) - 1] || null : null;
    const why = this.wrong ? WHY_ROW[this.kind](cells_in(this.wrong.text)) : '';
    const line = this.wrong ? `Line ${this.wrong.first + 1}, ${JSON.stringify(this.wrong.text.slice(0, 60))}, is not ${KINDS[this.kind].row}: ${why}. ` : '';
    refuse_value(this.area, ...(told ? [line, element('span', { class: 'program' }, `The program says: ${told}.`)] : []));
    if (this.wrong && document.activeElement !== this.area) this.show_line(this.wrong.first);
    this.number_lines();
  }

  show_line(line) {
    if (line < this.first || line >= this.first + this.count) this.turn_to(line);
    const high = line_height(), top = (line - this.first) * high, { scrollTop, clientHeight } = this.area;
    if (top < scrollTop || top + high > scrollTop + clientHeight) this.area.scrollTop = Math.max(0, top - high);
  }
}
