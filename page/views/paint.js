// What strips and curves have in common to draw: colours, boxes, words, axes, and what is chosen.

import { ticks_between } from './scale.js';
import { grouped } from '../data/text.js';

const LIGHT = {
  paper: '#ffffff', ground: '#f4f5f2', ink: '#1c2321', faint: '#5d6764', grid: '#d9ddd8', edge: '#444444', rail: '#26302d',
  curve: '#1f5f8b', limit: '#a63c00', out: '#e69f00', choice: 'rgba(31, 95, 139, 0.22)', hatch: '#8b938f',
};
const DARK = {
  paper: '#1b211f', ground: '#232a28', ink: '#e8ece9', faint: '#a3adaa', grid: '#36403d', edge: '#0d1110', rail: '#f2f4f2',
  curve: '#8fc7ee', limit: '#ff9d66', out: '#f0b429', choice: 'rgba(166, 211, 242, 0.28)', hatch: '#77817d',
};
export const LEVEL_BAR = '#1f5f8b';
export const EDGE = 10; // units of the page at the left and at the right of what is drawn
export const FACE = '"DejaVu Sans", Verdana, Arial, sans-serif';
export const is_dark = window.matchMedia('(prefers-color-scheme: dark)');
export const paper = { is_printed: false };

// How many pixels a unit of a picture has: with a larger font all of it is larger.
export const page_unit = () => parseFloat(getComputedStyle(document.documentElement).fontSize) / 16;

export const colours = () => is_dark.matches && !paper.is_printed ? DARK : LIGHT;

// The drawing of a canvas, cleared, in units of the page, `wide` between its edges; null while it can't be seen.
export function begin_drawing(canvas, height) {
  const unit = page_unit(), width = canvas.clientWidth / unit, sharp = unit * Math.max(1, window.devicePixelRatio || 1);
  if (width < 50) return null;
  const [wide, high] = [Math.round(width * sharp), Math.round(height * sharp)];
  if (canvas.width !== wide || canvas.height !== high) Object.assign(canvas, { width: wide, height: high });
  const pen = canvas.getContext('2d');
  pen.setTransform(sharp, 0, 0, sharp, 0, 0);
  pen.clearRect(0, 0, width, height);
  return Object.assign(pen, { wide: width - 2 * EDGE });
}

// Where the left edge of a packet is.
export const x_of = (pen, span, number) => EDGE + ((number - span.first) * pen.wide) / span.width;

export function fill_box(pen, colour, x, y, width, height) {
  pen.fillStyle = colour;
  pen.fillRect(x, y, width, height);
}

// A triangle whose tip is at this place.
export function fill_tip(pen, colour, x, y, half, high) {
  pen.beginPath();
  pen.moveTo(x, y);
  pen.lineTo(x - half, y + high);
  pen.lineTo(x + half, y + high);
  pen.fillStyle = colour;
  pen.fill();
}

// Lines from place to place, each of pairs of places, of this colour and width.
export function draw_lines(pen, colour, thick, lines) {
  Object.assign(pen, { strokeStyle: colour, lineWidth: thick });
  pen.beginPath();
  for (const [x, y, to_x, to_y] of lines) {
    pen.moveTo(x, y);
    pen.lineTo(to_x, to_y);
  }
  pen.stroke();
}

export function write(pen, text, x, y, colour, size = 11, anchor = 'start', weight = 'normal') {
  Object.assign(pen, { font: `${weight} ${size}px ${FACE}`, textAlign: anchor, textBaseline: 'alphabetic', fillStyle: colour });
  pen.fillText(text, x, y);
}

// The packets that are seen at which ticks stand, at most `most`.
export const ticks_of = ({ first, width }, most) => ticks_between(first, first + width, most, 1).filter((tick) => tick < first + width);

// The numbers of packets with their ticks; the words stand above the line or below it. `words` gives other words for a number, or is null.
export function draw_axis(pen, span, y, is_above, words = null) {
  const { faint, grid } = colours(), each = pen.wide / span.width, middle = each >= 12 ? 0.5 : 0;
  fill_box(pen, grid, EDGE, y, pen.wide, 1);
  for (const tick of ticks_of(span, Math.max(2, Math.floor(pen.wide / (words ? 150 : 90))))) {
    const x = x_of(pen, span, tick + middle);
    if (x > EDGE + pen.wide - 1) break;
    fill_box(pen, faint, Math.round(x), is_above ? y - 4 : y, 1, 5);
    write(pen, (words ?? grouped)(tick), Math.max(x, EDGE + 4), is_above ? y - 7 : y + 16, faint, 11, x - EDGE < 12 ? 'start' : 'center');
  }
}

export function draw_whole(pen, { first, width, total }, y) {
  if (width >= total) return;
  const { grid, faint } = colours(), seen = Math.max(6, (pen.wide * width) / total);
  fill_box(pen, grid, EDGE, y, pen.wide, 4);
  fill_box(pen, faint, EDGE + Math.min(pen.wide - seen, (pen.wide * first) / total), y, seen, 4);
}

// A mark at the chosen packet, and the choice of several; on a strip with pointers above and below.
export function draw_choice(pen, span, top, bottom, is_strip) {
  const { curve, choice, paper: ground } = colours(), right = EDGE + pen.wide, [from, to] = span.chosen(), high = bottom - top;
  const start = Math.max(EDGE, x_of(pen, span, from)), end = Math.min(right, x_of(pen, span, to + 1));
  if (to > from && end > start) fill_box(pen, choice, start, top, Math.max(1, end - start), high);
  const x = x_of(pen, span, span.at), width = Math.max(pen.wide / span.width, 2);
  if (x + width < EDGE - 1 || x > right + 1) return;
  if (!is_strip) {
    fill_box(pen, choice, x, top, width, high);
    return;
  }
  for (const [colour, thick] of [[ground, 5], [curve, 2.5]]) {
    Object.assign(pen, { strokeStyle: colour, lineWidth: thick });
    pen.strokeRect(x, top - 1, width, high + 2);
  }
  fill_tip(pen, curve, x + width / 2, top - 2, 5, -7);
  fill_tip(pen, curve, x + width / 2, bottom + 2, 5, 7);
}

export function within(pen, x, y, width, height, draw) {
  pen.save();
  pen.beginPath();
  pen.rect(x, y, width, height);
  pen.clip();
  draw();
  pen.restore();
}

// Lines from the lower left to the upper right, as a lost packet has.
export function draw_hatch(pen, x, y, width, height, colour) {
  const starts = Array.from({ length: Math.ceil((width + height) / 9) + 1 }, (_, place) => (Math.floor((x - height) / 9) + place) * 9);
  within(pen, x, y, width, height, () => draw_lines(pen, colour, 1, starts.map((start) => [start, y + height, start + height, y])));
}

// The pattern of what is lost, for parts of any form.
export function lost_pattern(pen) {
  const tile = Object.assign(document.createElement('canvas'), { width: 4, height: 4 }), brush = tile.getContext('2d');
  fill_box(brush, '#ffffff', 0, 0, 4, 4);
  for (let place = 0; place < 4; place += 1) fill_box(brush, '#555555', place, 3 - place, 1, 1);
  return pen.createPattern(tile, 'repeat');
}
