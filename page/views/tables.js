// Tables: of a report, and of the values out of limits.

import { button, element, fill } from './parts.js';
import { value_words } from './scale.js';
import { FINDINGS } from '../data/runs.js';
import { ABOVE, cells_of } from '../data/table.js';
import { counted, grouped } from '../data/text.js';

// A table with a name, these names above its columns, and these rows of it.
export function table_of(label, names, rows) {
  const heads = names.map((name) => element('th', { scope: 'col' }, name));
  return element('table', { 'aria-label': label }, element('thead', {}, element('tr', {}, ...heads)), element('tbody', {}, ...rows));
}

const ROWS_AT_ONCE = 40;

// A table of many rows: the first of them, a button for the next ones (on paper, which has no buttons, how many these are), and what `rest` says
// of those that are no items. `make` makes the row of an item; `last` are rows that always stand at the end.
function long_table(label, names, items, make, rest, last = []) {
  const table = table_of(label, names, []), more = button('More rows', () => add(), { 'aria-label': `More of ${label.toLowerCase()}` }), left = element('p', { class: 'hint on-paper' });
  let count = 0;
  const add = () => {
    table.tBodies[0].append(...items.slice(count, count + ROWS_AT_ONCE).map(make));
    count += ROWS_AT_ONCE;
    more.hidden = count >= items.length;
    fill(left, more.hidden ? '' : `${counted(items.length - count, 'row', 'rows')} more, which this paper leaves out.`);
  };
  add();
  table.append(element('tbody', {}, ...last));
  const box = element('div', { class: 'report', role: 'group', tabindex: '0', 'aria-label': label }, table);
  return [box, more, left, ...(rest ? [element('p', { class: 'hint' }, rest)] : [])];
}

// A report: how many packets each cause has, its rows joined where they are neighbours, and its last rows. `told` is what the worker tells of it;
// the first number of a row goes to that packet.
export function report_table(told, go) {
  const more = told.stretches - told.rows.length, last = end_rows(told);
  const rest = more > 0 ? `${counted(more, 'row', 'rows')} more after these, in the report that can be saved.` : '';
  return element('div', {}, element('p', {}, cause_words(told.counts)),
    ...long_table('The rows of the report', ['first', 'last', 'cause', 'value'], told.rows, (row) => report_row(row, go), rest, last));
}

function cause_words(counts) {
  const causes = FINDINGS.map((finding, kind) => ({ ...finding, ...counts[kind] })).filter((cause) => cause.packets > 0);
  if (causes.length === 0) return 'No packet is lost or refused.';
  return `${causes.map(({ word, packets, stretches }) => `${grouped(packets)} ${word}${packets > 1 ? ` in ${counted(stretches, 'row', 'rows')}` : ''}`).join(', ')}.`;
}

function report_row({ first, last, kind, low, high }, go) {
  const value = low === high ? grouped(low) : `${grouped(low)} to ${grouped(high)}`;
  const cells = [grouped(last), FINDINGS[kind].word, value].map((cell) => element('td', {}, cell));
  return element('tr', {}, element('td', {}, button(grouped(first), () => go(first), { 'aria-label': `Go to packet ${grouped(first)}` })), ...cells);
}

function end_rows({ end, late }) {
  const [arrived, written, repeats] = end;
  const row = (...cells) => element('tr', { class: 'end' }, ...cells.map((cell) => element('td', {}, cell)));
  const rows = [row('end', `${grouped(arrived)} arrived`, `${grouped(written)} written`, counted(repeats, 'repeat', 'repeats'))];
  return late === null ? rows : [...rows, row('late', `${grouped(late)} too late`, '', '')];
}

// A heading and a table of the stretches of the fields that are drawn; the first number of each goes to that packet.
export function stretch_table(view, fields, go) {
  const { table, shown: { stretches } } = view, drawn = fields.map((field) => stretches[table.fields.indexOf(field)]);
  const found = drawn.flatMap((one) => one.found).sort((one, other) => one.first - other.first), more = drawn.reduce((sum, { count }) => sum + count, 0) - found.length;
  if (found.length === 0) return [];
  const rest = more > 0 ? `And ${grouped(more)} more, in the values that can be saved.` : '';
  return [element('h2', {}, `Out of limits in ${counted(found.length + more, 'stretch', 'stretches')}`),
    ...long_table('The stretches out of limits', ['field', 'from', 'to', 'worst'], found, (one) => stretch_row(view, one, go), rest)];
}

function stretch_row(view, { column, side, first, last, worst }, go) {
  const field = view.table.fields[column], cell = cells_of(view.table, worst)[column];
  const from = button(grouped(first), () => go(first), { 'aria-label': `Go to packet ${grouped(first)}, ${field.name}` });
  const told = `${value_words(view.unit_of(field), cell)}, ${side === ABOVE ? `above ${field.limit.high_word}` : `below ${field.limit.low_word}`}`;
  return element('tr', {}, element('th', { scope: 'row' }, field.name), element('td', {}, from), element('td', {}, grouped(last)), element('td', {}, told));
}
