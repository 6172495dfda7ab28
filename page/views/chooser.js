// Which fields of a table are drawn: chosen by name, those out of their limits first.

import { element, fill, part } from './parts.js';
import { grouped } from '../data/text.js';

const AT_FIRST = 8; // fields, if none is chosen yet
const MOST_LISTED = 300;

export class Chooser {
  constructor(changed) {
    Object.assign(this, { changed, fields: [], chosen: new Set() });
    part('fields-search').addEventListener('input', () => this.list());
    for (const [id, act] of [['choose-out', () => this.choose(this.fields.filter((field) => field.outside))], ['choose-found', () => this.choose(this.found())], ['choose-none', () => this.choose([])]]) {
      part(id).addEventListener('click', act);
    }
  }

  // The fields of another table, or none. Those that were chosen stay chosen by their names.
  show(fields) {
    this.fields = [...fields].sort((one, other) => other.outside - one.outside);
    if (fields.length && !fields.some((field) => this.chosen.has(field.name))) this.chosen = new Set(this.fields.slice(0, AT_FIRST).map((field) => field.name));
    this.list();
  }

  // The chosen fields, those with most values out of limits first.
  shown() {
    return this.fields.filter((field) => this.chosen.has(field.name));
  }

  found() {
    const wanted = part('fields-search').value.trim().toLowerCase();
    return this.fields.filter((field) => field.name.toLowerCase().includes(wanted));
  }

  choose(fields) {
    this.chosen = new Set(fields.map((field) => field.name));
    this.list();
    this.changed();
  }

  list() {
    const found = this.found();
    part('choose-out').disabled = !this.fields.some((field) => field.outside);
    fill(part('fields-list'), ...found.slice(0, MOST_LISTED).map((field) => this.row(field)));
    fill(part('fields-found'), this.fields.length === 0 ? '' : `${grouped(found.length)} of ${grouped(this.fields.length)} fields`
      + `${found.length > MOST_LISTED ? `, of which the first ${MOST_LISTED} are listed` : ''}, those out of limits first.`);
  }

  row(field) {
    const out = field.outside ? [element('span', { class: 'out' }, ` ${grouped(field.outside)} out`)] : [], change = ({ target }) => {
      this.chosen[target.checked ? 'add' : 'delete'](field.name);
      this.changed();
    };
    const box = Object.assign(element('input', { type: 'checkbox', on_change: change }), { checked: this.chosen.has(field.name) });
    return element('li', {}, element('label', {}, box, ` ${field.name}`, ...out));
  }
}
