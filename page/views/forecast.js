// Before a pass: which packets are safe under a schedule and a loss.

import { remember } from './address.js';
import { Advice, adding } from './advice.js';
import { Desk } from './desk.js';
import { Later, button, element, fill, part, refill, refuse_value, save, tell } from './parts.js';
import { Rows } from './rows.js';
import { Span } from './span.js';
import { zoom_buttons } from './steer.js';
import { Strip, fill_legend } from './strip.js';
import { View } from './view.js';
import { EXAMPLE } from '../data/example.js';
import { forecast_words, sure_words } from '../data/forecast.js';
import { OPEN } from '../data/runs.js';
import { counted, grouped, sentence } from '../data/text.js';

const LONG_GAP = 'A gap is as long as the period of the sequence counts (16,384), or no packet arrives: the ground can then take a packet '
  + 'for a repeat, and nothing is promised.';
const MISSING = 'These are the losses of a store. The schedule that was sent is missing: open it or type it, and say its robust; until then this '
  + 'is the forecast of a sender without a schedule. ';

const are_same = (texts, others) => Object.keys(EXAMPLE).every((name) => texts[name] === others[name]);

export class ForecastView extends View {
  constructor() {
    super('forecast');
    Object.assign(this, { span: new Span(), before: [], latest: null, is_changed: false, is_new: true, why_desk: new Desk(), pending: null });
    this.explaining = new Later(() => this.explain(), 160);
    this.plan = new Rows('plan', 'schedule', () => this.type());
    this.script = new Rows('script', 'script', () => this.type());
    this.advice = new Advice((asked, robust) => this.change(() => Object.assign(part('robust'), { value: robust }), asked), (asked, rows) => this.add_rows(rows, asked));
    this.strip = new Strip(part('forecast-strip'), this.span, {
      key: (event) => this.key(event),
      drag: (first, last, is_other) => this.make_row(first, last, part('drag-whole').checked !== is_other),
      drag_word: (first, last) => `${this.row_of(first, last, part('drag-whole').checked)} when you let go; Escape leaves it`,
    });
    part('forecast-zoom').append(zoom_buttons(this.span));
    this.span.watch(() => this.point());
    this.listen();
  }

  listen() {
    for (const id of ['packets', 'robust']) part(id).addEventListener('input', () => this.type());
    const acts = {
      undo: () => this.undo(),
      anew: () => this.change(() => this.put(EXAMPLE)),
      'make-loss': () => this.make_row(...this.span.chosen(), false),
      'make-whole': () => this.make_row(...this.span.chosen(), true),
      'save-forecast': () => save('forecast.csv', this.shown.bytes),
    };
    for (const [id, act] of Object.entries(acts)) part(id).addEventListener('click', act);
  }

  texts() {
    return { packets: part('packets').value, robust: part('robust').value, plan: this.plan.text, script: this.script.text };
  }

  put(texts) {
    for (const id of ['packets', 'robust']) part(id).value = texts[id];
    for (const id of ['plan', 'script']) this[id].text = texts[id];
    this.typed();
  }

  // Takes the losses of a store. Its schedule is asked for, and until there is one, that it is missing stands beside the picture.
  put_losses(packets, script) {
    this.is_new = true;
    this.change(() => this.put({ ...this.texts(), packets: String(packets), script, plan: '' }));
    const box = part('forecast-missing'), open = element('label', { class: 'button plain', for: 'plan-file' }, 'Open the schedule');
    fill(box, MISSING, open, ' ', button('It had none', () => fill(box)));
  }

  // A change that can be taken back; gives whether it was made. What was advised on other texts than those that stand is not made.
  change(make, asked = null) {
    const texts = this.texts();
    if (asked && !are_same(texts, asked)) {
      this.tell_change('The texts have changed since this was tried: wait for what is tried now.');
      return false;
    }
    this.before.push(texts);
    make();
    this.typed();
    this.is_changed = true;
    return true;
  }

  // What is typed after a change is one of its own: taken back alone, and first.
  type() {
    if (this.is_changed) this.before.push(this.latest);
    this.is_changed = false;
    this.typed();
  }

  add_rows(rows, asked) {
    if (this.change(() => this.plan.add(rows), asked)) this.tell_change(`${rows.length === 1 ? `${rows[0]} is` : `${rows.length} rows are`} added to the schedule. Z takes ${rows.length === 1 ? 'it' : 'them'} back.`);
  }

  undo() {
    if (!this.before.length) return;
    this.put(this.before.pop());
    this.is_changed = true;
    this.tell_change('The latest change is taken back.');
  }

  row_of(first, last, is_whole) {
    return is_whole ? `${first},${last},1,fr` : `drop,${first},${last},1`;
  }

  // A row for these packets: in the schedule that they are whole, or in the script that they are lost.
  make_row(first, last, is_whole) {
    if (!this.runs) return;
    const row = this.row_of(first, last, is_whole);
    this.change(() => (is_whole ? this.plan : this.script).add([row]));
    this.span.go(this.span.at);
    this.tell_change(`${row} is added to ${is_whole ? 'the schedule' : 'the losses'}. Z takes it back.`);
  }

  tell_change(words) {
    this.pending = null;
    fill(part('forecast-change'), words);
  }

  // The first press of L or W shows the row, the second one makes it.
  ask_row(is_whole) {
    const chosen = this.span.chosen(), key = `${chosen} ${is_whole}`, is_second = this.pending === key;
    if (is_second) this.make_row(...chosen, is_whole);
    else this.tell_change(`${is_whole ? 'W' : 'L'} once more, or Enter, adds ${this.row_of(...chosen, is_whole)}; Escape leaves it.`);
    this.pending = is_second ? null : key;
  }

  key(event) {
    const letter = event.key.toLowerCase();
    if (letter === 'z' && !event.altKey) this.undo();
    else if (event.ctrlKey || event.metaKey || event.altKey) return false;
    else if (letter === 'l' || letter === 'w') this.ask_row(letter === 'w');
    else if (event.key === 'Enter' && this.pending) this.ask_row(this.pending.endsWith('true'));
    else if (event.key !== 'Escape') return false;
    else {
      this.tell_change('');
      this.span.go(this.span.at);
    }
    return true;
  }

  // Asks for the forecast of the texts; while one is under way the latest texts wait, so that a picture comes for some of them at least.
  typed() {
    const asked = this.latest = this.texts();
    part('undo').disabled = this.before.length === 0;
    part('forecast-example').hidden = !are_same(asked, EXAMPLE);
    if (asked.plan) fill(part('forecast-missing'));
    if (!this.desk.asked) this.ask(asked, [], 'forecasting');
    remember(asked);
  }

  show({ status, text, given }) {
    const { runs } = this, refused = status === 2 ? 'a number is refused' : text;
    this.refuse(text);
    part('save-forecast').disabled = !runs;
    if (runs) {
      this.strip.show(runs);
      this.advice.start(given, runs.total);
      if (this.is_new && runs.totals[OPEN]) this.span.go(runs.first_of(OPEN));
    } else {
      this.strip.clear(refused);
      this.advice.clear();
    }
    this.is_new = false;
    this.sum(refused);
    this.point();
    if (!are_same(this.texts(), given)) this.typed();
  }

  refuse(text) {
    refuse_value(part('packets'), text === 'word 2 is wrong' ? 'A number from 1 to 1,000,000, digits alone.' : '');
    refuse_value(part('robust'), text === 'word 3 is wrong' ? 'A number from 0 to 7.' : '');
    this.plan.refuse(text.startsWith('side ') ? text : '');
    this.script.refuse(text.startsWith('script ') ? text : '');
  }

  sum(refused) {
    const { runs } = this;
    fill_legend(part('forecast-legend'), runs, this.strip);
    tell('forecast-sure', runs ? sentence(sure_words(runs)) : '');
    const [first, widest] = runs?.gaps ?? [], open = runs?.totals[OPEN], rest = open ? `${counted(open, 'is', 'are')} open` : 'all that arrive are';
    tell('forecast-gaps', first === '-' || Number(first) > 16383 || Number(widest) > 16383 ? LONG_GAP : '');
    fill(part('forecast-sum'), ...(runs ? [element('b', {}, `${grouped(runs.end[1])} of ${counted(runs.total, 'packet is', 'packets are')} sure`), `; ${rest}.`] : [`No forecast: ${refused}.`]));
  }

  // The chosen packet in words, and after a moment what would make it sure if it is open.
  point() {
    const chosen = this.span.chosen();
    for (const [id, is_whole] of [['loss-row', false], ['whole-row', true]]) fill(part(id), this.row_of(...chosen, is_whole));
    if (this.pending && !this.pending.startsWith(`${chosen} `)) this.tell_change('');
    part('forecast-words').hidden = !this.runs;
    const words = this.runs ? forecast_words(this.runs, this.judged.script, this.span.at) : '';
    if (this.pointed?.words === words && this.pointed.judged === this.judged) return;
    this.pointed = { words, judged: this.judged };
    this.why_desk.drop();
    this.explaining.stop();
    fill(part('forecast-state'), words ? sentence(words) : '');
    refill(part('forecast-tried'));
    if (this.runs && this.runs.kind_at(this.span.at) === OPEN) this.explaining.start();
  }

  // What would make an open packet sure, tried by the program.
  async explain() {
    const { at } = this.span, { given: asked } = this.judged;
    try {
      const found = await this.why_desk.ask('why', { asked, at });
      if (found) refill(part('forecast-tried'), element('p', { class: 'hint' }, 'Tried by the program:'), this.ways(found, asked, at));
    } catch (fault) {
      fill(part('forecast-tried'), `What would make it sure can't be tried: ${fault.message}.`);
    }
  }

  ways({ rows, heads, is_sure, robust }, asked, at) {
    const list = element('ul', { class: 'ways' }), [head] = heads, add = (more) => adding(more, () => this.add_rows(more, asked));
    if (is_sure) {
      const many = heads.length > 1 ? 'packets' : 'packet', name = heads.length === 1 && head === at ? 'it' : `${many} ${heads.map(grouped).join(', ')}`;
      list.append(element('li', {}, `It would be sure if ${name} were whole, with its mask: `, add(rows)));
    }
    if (robust) {
      const end = robust.is_enough ? (head === at ? '' : ', and this one is then sure too') : ', but this one would still be open';
      list.append(element('li', {}, `Packet ${grouped(head)} would be sure if it required a robustness of ${robust.value}${end}: `, add([robust.row])));
    } else if (heads.length) {
      list.append(element('li', {}, `No robustness up to 7 makes packet ${grouped(head)} sure.`));
    }
    return list;
  }
}
