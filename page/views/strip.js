// A strip of packets by number, on a canvas. If several packets share a unit of the page, each state has its share of the height there, and
// none that is there is left out.

import { button, element, fill } from './parts.js';
import { EDGE, LEVEL_BAR, begin_drawing, colours, draw_axis, draw_choice, draw_hatch, draw_whole, fill_box, lost_pattern, within, write, x_of } from './paint.js';
import { Picture } from './picture.js';
import { NO_LEVEL } from '../data/runs.js';
import { grouped, range_words } from '../data/text.js';

const STRIP = { height: 132, marks: 34, rail: 38, top: 44, bottom: 92, whole: 120 };
export const LOW_STRIP = { height: 88, marks: 12, rail: 16, top: 22, bottom: 52, whole: 82, is_low: true }; // beside other pictures
export const STEPS = 48; // the heights of a unit's states have this sum
const LEAST = 2; // no state that is there has less

// How high each state stands in a unit of the page in which so many packets have it.
export function heights_of(counts) {
  const all = counts.reduce((sum, count) => sum + count, 0);
  const heights = Array.from(counts, (count) => (count > 1e-6 ? Math.max(LEAST, Math.round((STEPS * count) / all)) : 0));
  const most = heights.indexOf(Math.max(...heights));
  heights[most] += STEPS - heights.reduce((sum, height) => sum + height, 0);
  return heights;
}

// The parts of a strip from left to right: `from` and `to` in units of the page from its left edge, the worst kind that is there, and the
// heights of all kinds.
export const strip_parts = (runs, span, wide) => span.width <= wide ? whole_parts(runs, span, wide) : shared_parts(runs, span, wide);

// Those if each packet has a unit of its own at least: one for each run.
function whole_parts(runs, span, wide) {
  const parts = [], each = span.width / wide, end = span.first + span.width;
  for (let place = runs.place_of(Math.floor(span.first)); place < runs.size && runs.first[place] < end; place += 1) {
    const from = Math.max(0, (runs.first[place] - span.first) / each), to = Math.min(wide, (runs.last(place) + 1 - span.first) / each);
    parts.push({ from, to, kind: runs.kind[place], is_whole: true, heights: runs.kinds.map((_, kind) => (kind === runs.kind[place] ? STEPS : 0)) });
  }
  return parts;
}

// Those if packets share units: neighbours that look the same are one.
function shared_parts(runs, span, wide) {
  const parts = [], each = span.width / wide;
  let before = runs.before(span.first);
  for (let x = 0; x < wide; x += 1) {
    const now = runs.before(Math.min(runs.total, span.first + (x + 1) * each));
    const heights = heights_of(now.map((count, kind) => count - before[kind])), to = Math.min(wide, x + 1);
    const kind = heights.findLastIndex((height) => height > 0);
    if (String(parts.at(-1)?.heights) === String(heights)) parts.at(-1).to = to;
    else parts.push({ from: x, to, kind, is_whole: heights[kind] === STEPS, heights });
    before = now;
  }
  return parts;
}

// What one kind alone has of a part, or null.
function part_of(one, only) {
  return one.heights[only] ? { ...one, kind: only, is_whole: one.heights[only] === STEPS, heights: one.heights.map((height, kind) => (kind === only ? height : 0)) } : null;
}

export class Strip extends Picture {
  // `note` gives more words on a packet; `more` is for the keys and the drags of the view. N and P go to the next packets that are not of the
  // best kind, or of the kind that is shown alone, unless it says otherwise.
  constructor(canvas, span, { form = STRIP, drag_word = () => '', note = () => '', ...more } = {}) {
    super(canvas, span, form.height, { leap: (way) => (this.runs ? this.runs.next_bad(span.at, way, this.only) : -1), ...more });
    Object.assign(this, { form, drag_word, note, runs: null, refusal: '', axis_words: null, only: -1, cut: { key: '', parts: [] } });
    span.watch(() => this.change());
  }

  show(runs) {
    if (!runs.totals[this.only]) this.only = -1;
    Object.assign(this, { runs: runs.total > 0 ? runs : null, refusal: 'no packets', cut: { key: '', parts: [] } });
    this.span.set_total(runs.total);
    this.change();
  }

  // No picture, and why: after a refusal no old one stays.
  clear(refusal) {
    Object.assign(this, { runs: null, refusal }).change();
  }

  words() {
    const { span, runs } = this, [first, last] = span.chosen(), chosen = last > first ? `, ${range_words(first, last)} chosen` : '';
    return runs ? `packet ${grouped(span.at)}, ${runs.kinds[runs.kind_at(span.at)].word}${this.note(span.at)}${chosen}` : `no picture: ${this.refusal}`;
  }

  // The parts of what is seen, cut anew if that is another part of the packets or another kind alone.
  parts(wide) {
    const { span, runs, cut, only } = this, key = `${span.first} ${span.width} ${wide} ${only}`;
    if (cut.key !== key) this.cut = { key, parts: strip_parts(runs, span, wide).map((one) => (only < 0 ? one : part_of(one, only))).filter(Boolean) };
    return this.cut.parts;
  }

  draw() {
    const pen = begin_drawing(this.canvas, this.height), { span, form } = this;
    if (!pen) return;
    if (!this.runs) {
      write(pen, this.refusal, EDGE + pen.wide / 2, form.height / 2 + 6, colours().faint, 13, 'center');
      return;
    }
    if (!form.is_low) draw_axis(pen, span, 20, true);
    draw_axis(pen, span, form.bottom + 6, false, this.axis_words);
    draw_whole(pen, span, form.whole);
    const parts = this.parts(pen.wide), lost = lost_pattern(pen), word = span.is_dragged ? this.drag_word(...span.chosen()) : '';
    for (const one of parts) this.draw_part(pen, one, lost);
    if (pen.wide / span.width >= 5) within(pen, EDGE, form.top, pen.wide, form.bottom - form.top, () => this.draw_cells(pen));
    this.draw_letters(pen, parts);
    draw_choice(pen, span, form.top, form.bottom, true);
    if (word) write(pen, word, EDGE + pen.wide / 2, form.whole + 10, colours().ink, 12, 'center', 'bold');
  }

  // A part: its colours, and for what is not the best kind a rail above it, which tells by its height and lightness too.
  draw_part(pen, one, lost) {
    const { rail, edge, hatch } = colours(), { top, bottom, rail: line } = this.form, kind = this.runs.kinds[one.kind], height = bottom - top;
    const x = EDGE + one.from, width = Math.max(1, one.to - one.from), is_lost = kind.word === 'lost', is_wide = width >= 3 && one.is_whole;
    if (one.is_whole) fill_box(pen, is_lost && width < 3 ? edge : kind.fill, x, top, width, height);
    else this.draw_shares(pen, one, x, width, lost);
    if (is_wide && is_lost) draw_hatch(pen, x, top, width, height, hatch);
    const high = one.kind === 1 && !is_lost ? 2 : 5;
    if (one.kind > 0) fill_box(pen, rail, x, line + 5 - high, width, high);
    Object.assign(pen, { strokeStyle: edge, lineWidth: 1 });
    if (is_wide) pen.strokeRect(x + 0.5, top + 0.5, width - 1, height - 1);
  }

  // The states of a unit above each other, the best one below.
  draw_shares(pen, one, x, width, lost) {
    const { top, bottom } = this.form;
    let y = bottom;
    one.heights.forEach((steps, place) => {
      const height = (steps * (bottom - top)) / STEPS, { word, fill: colour } = this.runs.kinds[place];
      y -= height;
      if (steps) fill_box(pen, word === 'lost' ? lost : colour, x, y, width, height);
    });
  }

  // What each packet has of its own, if there is room: an edge, a bar for its level, a ring for repeats, a dot for what is half known.
  draw_cells(pen) {
    const { runs, span } = this, each = pen.wide / span.width, { top, bottom } = this.form;
    for (let number = Math.floor(span.first); number < Math.min(span.total, span.first + span.width); number += 1) {
      const x = x_of(pen, span, number), place = runs.place_of(number), level = runs.level[place], { ink } = runs.kinds[runs.kind[place]];
      if (x > EDGE) fill_box(pen, each < 9 ? 'rgba(0, 0, 0, 0.12)' : colours().edge, Math.round(x), top, 1, bottom - top);
      if (this.only >= 0 && runs.kind[place] !== this.only) continue;
      const bar = level === NO_LEVEL ? 0 : ((bottom - top - 2) * level) / 15;
      fill_box(pen, LEVEL_BAR, x + 1, bottom - 1 - bar, Math.max(2, Math.min(6, each * 0.4)), bar);
      if (each >= 14) this.draw_marks(pen, place, x + each, ink);
      if (each >= 60 && level !== NO_LEVEL && !this.form.is_low) write(pen, `level ${level}`, x + each / 2 + 3, bottom - 6, ink, 10, 'center');
    }
  }

  draw_marks(pen, place, right, ink) {
    const { runs, form } = this;
    if (runs.half[place]) fill_box(pen, ink, right - 8, form.bottom - 5, 5, 2);
    if (!runs.repeats[place]) return;
    pen.beginPath();
    pen.arc(right - 6, form.top + 6, 3, 0, 7);
    Object.assign(pen, { fillStyle: '#ffffff', strokeStyle: '#000000', lineWidth: 1.2 });
    pen.fill();
    pen.stroke();
  }

  // The letters: in a part that has room for it, else above it; above they thin out where they would touch.
  draw_letters(pen, parts) {
    const { ink } = colours(), { top, bottom, marks, is_low } = this.form, has_words = pen.wide / this.span.width >= 60 && !is_low;
    let free = -Infinity;
    for (const one of parts) {
      const kind = this.runs.kinds[one.kind], middle = EDGE + (one.from + one.to) / 2;
      if (!kind.letter) continue;
      if (one.to - one.from >= 14 && one.is_whole) {
        write(pen, kind.letter, middle, (top + bottom) / 2 + 6, kind.ink, 17, 'center', 'bold');
        if (has_words) write(pen, kind.word, middle, bottom - 6, kind.ink, 10, 'center');
      } else if (middle - 5 > free) {
        write(pen, kind.letter, middle, marks, ink, 11, 'center', 'bold');
        free = middle + 6;
      }
    }
  }
}

// The key of a strip's kinds, with how many packets each has; a press shows one kind alone, among which N and P go then.
export function fill_legend(box, runs, strip) {
  const shown = runs ? runs.kinds.map((kind, place) => ({ kind, place, count: runs.totals[place] })).filter((row) => row.count > 0) : [];
  fill(box, ...shown.map(({ kind, place, count }) => {
    const sign = element('span', { class: `sign ${kind.word}`, 'aria-hidden': 'true' }, kind.letter);
    sign.style.background = kind.fill;
    sign.style.color = kind.ink;
    const press = () => {
      strip.only = strip.only === place ? -1 : place;
      [...box.querySelectorAll('button')].forEach((other, at) => other.setAttribute('aria-pressed', String(shown[at].place === strip.only)));
      strip.change();
    };
    return element('li', {}, button([sign, element('b', {}, `${grouped(count)} ${kind.word}`)], press, { 'aria-pressed': String(strip.only === place), title: `${kind.word} alone, or all` }), ` ${kind.told}`);
  }));
}
