// What would make all sure that arrive: the least robust, and rows of whole content. Each was tried by the program.

import { Desk } from './desk.js';
import { Later, button, element, fill, part, refill } from './parts.js';
import { counted, grouped } from '../data/text.js';

export class Advice {
  // `take` is called with what was asked and a value of robust, `add` with rows of the schedule.
  constructor(take, add) {
    Object.assign(this, { add, asked: null, shown: null, total: 0, desk: new Desk() });
    this.asking = new Later(() => this.ask(), 250);
    // (what one robust gives has a button that takes it, which stays where it is as long as the page does)
    this.rows = Array.from({ length: 8 }, (_, robust) => {
      const own = button('Take', () => take(this.shown, robust), { 'aria-label': `Take robust ${robust}` }), bar = element('span', { class: 'bar' }, element('span', { class: 'filled' }));
      return element('tr', {}, element('th', { scope: 'row' }, String(robust)), element('td', {}, bar), element('td', { class: 'number' }), element('td', { class: 'number' }), element('td', {}, own));
    });
    fill(part('robust-rows'), ...this.rows);
  }

  // Asks for advice on a forecast of so many packets, after a moment.
  start(asked, total) {
    Object.assign(this, { asked, total });
    part('advice').hidden = false;
    for (const id of ['advice', 'advice-first']) part(id).classList.add('old');
    this.asking.start();
  }

  // No advice: after a refusal no old one stays.
  clear() {
    this.asking.stop();
    this.desk.drop();
    part('advice').hidden = true;
    this.tell('');
  }

  // Says this alone: of what was tried before nothing stays.
  tell(words) {
    fill(part('robust-told'), words);
    refill(part('rows-told'));
    for (const { children: [, share, sure, open] } of this.rows) {
      share.querySelector('.filled').style.width = '0';
      fill(sure);
      fill(open);
    }
  }

  async ask() {
    const { asked } = this, tried = [];
    this.shown = asked;
    for (const id of ['advice', 'advice-first']) part(id).classList.remove('old');
    this.tell('Trying 0 to 7 ..');
    try {
      const answer = await this.desk.ask('advice', { asked }, [], ({ robust, ...rows }) => (robust ? this.tell_robust(robust, tried) : this.tell_rows(rows, false)));
      if (answer) this.tell_rows(answer, true);
      else if (asked === this.asked && !part('advice').hidden) this.tell('No advice: the program refuses what was to be tried.');
    } catch (fault) {
      this.tell(`No advice: ${fault.message}.`);
    }
  }

  tell_robust(row, tried) {
    const box = this.rows[row.robust], [, share, sure, open, take] = box.children, is_own = String(row.robust) === this.asked.robust;
    tried.push(row);
    share.querySelector('.filled').style.width = `${(100 * row.sure) / this.total}%`;
    fill(sure, grouped(row.sure));
    fill(open, row.open ? grouped(row.open) : 'none');
    fill(take.firstChild, is_own ? 'taken' : 'Take');
    box.className = is_own ? 'own' : '';
    if (tried.length < 8) return;
    const least = tried.find((one) => one.open === 0);
    fill(part('robust-told'), least ? `Robust ${least.robust} is the least that makes all sure that arrive.` : 'No robust from 0 to 7 makes all sure that arrive.');
  }

  tell_rows({ rows, open }, is_done) {
    const { shown } = this, box = part('rows-told'), these = rows.length === 1 ? 'This row makes' : `These ${rows.length} rows make`;
    const front = open ? `After these ${rows.length} rows of whole content ${counted(open, 'packet is', 'packets are')} still open: ` : `${these} all sure, too: `;
    const told = [front, element('code', { class: 'list', title: rows.join('\n') }, rows.join('\n')), ' ', adding(rows, () => this.add(shown, rows))];
    if (is_done) refill(box, ...(rows.length ? told : []));
    else if (rows.length) refill(box, `${counted(rows.length, 'row', 'rows')} tried, ${counted(open, 'packet', 'packets')} still open ..`);
  }
}

export const adding = (rows, add) => button(rows.length === 1 ? `Add ${rows[0]}` : `Add ${rows.length} rows`, add, { title: rows.join('\n') });
