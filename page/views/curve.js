// A field over the packets' numbers, as a step line on a canvas of its own.

import { EDGE, FACE, begin_drawing, colours, draw_choice, draw_hatch, draw_lines, fill_box, fill_tip, paper, ticks_of, write, x_of } from './paint.js';
import { element, fill } from './parts.js';
import { Picture } from './picture.js';
import { short_number, ticks_between } from './scale.js';
import { STEPS, strip_parts } from './strip.js';
import { columns_of } from '../data/table.js';
import { grouped } from '../data/text.js';

const MARGIN = 9; // above and below the line, for the marks of what is out of limits

export class Curve extends Picture {
  // `view` has the table, the places, the units and the span that all its curves share.
  constructor(view, field, height) {
    super(element('canvas', { class: 'curve', role: 'slider', tabindex: '0', 'aria-label': `The field ${field.name}`, 'aria-describedby': 'fields-keys' }), view.span, height, { leap: (way) => view.leap(way) });
    Object.assign(this, { view, field, key: '', columns: [], is_near: true, top: MARGIN, bottom: height - MARGIN, now: element('span', { class: 'now' }) });
    const out = field.outside ? [element('span', { class: 'out' }, `${grouped(field.outside)} out`)] : [];
    this.box = element('div', {}, element('div', { class: 'curve-head' }, element('b', {}, field.name), element('span', {}, field.words),
      element('span', {}, field.limit ? `limits ${field.limit.words}` : 'no limits'), ...out, this.now), this.canvas);
    this.sight = new IntersectionObserver(([seen]) => {
      this.is_near = seen.isIntersecting;
      if (this.is_near) this.draw_soon();
    }, { rootMargin: '400px' });
    this.sight.observe(this.canvas);
  }

  end() {
    super.end();
    this.sight.disconnect();
  }

  words() {
    const { at } = this.span, words = this.view.value_words(this.field, at);
    fill(this.now, words.replace(`${this.field.name} is `, '').replace(/ its limit.*/, ''));
    this.now.classList.toggle('out', words.includes(' its limit'));
    return `packet ${grouped(at)}: ${words}`;
  }

  y(value) {
    const { low, high } = this.scale;
    return high > low ? this.bottom - ((this.bottom - this.top) * (value - low)) / (high - low) : (this.top + this.bottom) / 2;
  }

  draw() {
    const pen = this.is_near || paper.is_printed ? begin_drawing(this.canvas, this.height) : null, { span, field } = this, { low, high } = field.limit ?? field;
    if (!pen || span.total === 0) return;
    const key = `${span.first} ${span.width} ${pen.wide}`;
    if (key !== this.key) this.columns = columns_of(field, this.view.places, span, pen.wide);
    this.key = key;
    this.scale = { low: Math.min(field.low, low), high: Math.max(field.high, high) };
    fill_box(pen, colours().ground, EDGE, this.top - 4, pen.wide, this.bottom - this.top + 8);
    this.draw_ticks(pen);
    this.draw_gaps(pen);
    this.draw_limits(pen);
    this.draw_line(pen);
    this.draw_outside(pen);
    this.draw_values(pen);
    draw_choice(pen, span, this.top - 4, this.bottom + 4, false);
  }

  // The values at which ticks stand, and their words in the field's unit.
  ticks() {
    const { low, high } = this.scale, { scale, offset } = this.view.unit_of(this.field), told = (value) => value * scale + offset;
    const ends = [told(low), told(high)].sort((one, other) => one - other);
    return ticks_between(...ends, Math.max(3, Math.floor(this.height / 22))).map((tick) => [(tick - offset) / scale, short_number(tick)]);
  }

  draw_ticks(pen) {
    const { span, top, bottom } = this, { grid } = colours();
    for (const tick of ticks_of(span, Math.max(2, Math.floor(pen.wide / 90)))) fill_box(pen, grid, Math.round(x_of(pen, span, tick)), top - 4, 1, bottom - top + 8);
    for (const [value] of this.ticks()) fill_box(pen, grid, EDGE, Math.round(this.y(value)), pen.wide, 1);
  }

  // Packets that are not in the recording: a band with their letter; if they share a unit with others, as high as their share.
  draw_gaps(pen) {
    const { view: { runs }, span, top, bottom } = this, { paper: ground, hatch, faint } = colours(), whole = bottom - top + 8;
    for (const one of strip_parts(runs, span, pen.wide)) {
      if (one.kind === 0) continue;
      const x = EDGE + one.from, width = Math.max(1, one.to - one.from), high = (whole * (STEPS - one.heights[0])) / STEPS, is_band = width >= 3 && one.heights[0] === 0;
      fill_box(pen, is_band ? ground : hatch, x, bottom + 4 - high, width, high);
      if (is_band) draw_hatch(pen, x, top - 4, width, whole, hatch);
      if (is_band && width >= 14) write(pen, runs.kinds[one.kind].letter, x + width / 2, (top + bottom) / 2 + 5, faint, 14, 'center', 'bold');
    }
  }

  draw_limits(pen) {
    const { limit } = this.field, lines = limit ? [limit.low, limit.high].map((bound) => Math.round(this.y(bound)) + 0.5) : [];
    pen.setLineDash([6, 4]);
    draw_lines(pen, colours().limit, 1, lines.map((y) => [EDGE, y, EDGE + pen.wide, y]));
    pen.setLineDash([]);
  }

  // The line goes level over a packet and steps to the next one; it breaks where packets are missing between.
  draw_line(pen) {
    let before = null;
    Object.assign(pen, { strokeStyle: colours().curve, lineWidth: 1.6 });
    pen.beginPath();
    for (const one of this.columns) {
      const x = EDGE + one.from, is_joined = before && one.begin === before.end && one.from - before.to < 0.01;
      if (!is_joined) pen.moveTo(x, this.y(one.first));
      for (const value of one.high > one.low ? [one.first, one.low, one.high, one.last] : [one.first]) pen.lineTo(x, this.y(value));
      pen.lineTo(EDGE + one.to, this.y(one.last));
      before = one;
    }
    pen.stroke();
  }

  // Above the line what is over the high limit, below it what is under the low one: a bar, and triangles that thin out.
  draw_outside(pen) {
    const { out, ink } = colours();
    for (const [name, y, tip, high] of [['is_above', this.top - 8, -1, 5], ['is_below', this.bottom + 5, 4, -5]]) {
      let free = -Infinity;
      for (const one of this.columns.filter((column) => column[name])) {
        const middle = EDGE + (one.from + one.to) / 2;
        fill_box(pen, out, EDGE + one.from, y, Math.max(1, one.to - one.from), 3);
        if (middle < free) continue;
        free = middle + 14;
        fill_tip(pen, ink, middle, y + tip, 4, high);
      }
    }
  }

  draw_values(pen) {
    const { faint, ground } = colours();
    for (const [value, words] of this.ticks()) {
      const y = Math.min(this.bottom + 3, Math.max(this.top + 6, this.y(value) + 4));
      pen.font = `10px ${FACE}`;
      fill_box(pen, ground, EDGE + 1, y - 9, pen.measureText(words).width + 5, 11);
      write(pen, words, EDGE + 3, y, faint, 10);
    }
  }
}
