// Pictures on canvases: how large they are, when they are drawn, and what they say to those who don't see them.

import { is_dark, paper } from './paint.js';
import { steer } from './steer.js';

const pictures = new Set(), asked = new Set(); // all, and those that are to be drawn soon
const MOST_TIME = 6; // milliseconds of drawing at once
let is_drawing = false;

export class Picture {
  // `more` is what steers the span beside the keys of all pictures.
  constructor(canvas, span, height, more) {
    Object.assign(this, { canvas, span, height, watcher: new ResizeObserver(() => this.draw_soon()) });
    canvas.style.height = `${height / 16}rem`;
    steer(canvas, span, more);
    this.watcher.observe(canvas);
    pictures.add(this);
  }

  end() {
    this.watcher.disconnect();
    pictures.delete(this);
  }

  // Has it say what it shows, and drawn soon. If its `runs` are null, it shows nothing.
  change() {
    const { canvas, span: { total, at } } = this, now = this.runs === null ? [0, 0] : [Math.max(0, total - 1), at];
    for (const [name, value] of [['max', now[0]], ['now', now[1]], ['min', 0], ['text', this.words()]]) canvas.setAttribute(`aria-value${name}`, value);
    this.draw_soon();
  }

  // Many are drawn over several turns, so that they don't hold the page up.
  draw_soon() {
    asked.add(this);
    if (!is_drawing) requestAnimationFrame(draw_some);
    is_drawing = true;
  }
}

function draw_some() {
  const end = performance.now() + MOST_TIME;
  for (const picture of asked) {
    asked.delete(picture);
    picture.draw();
    if (performance.now() > end) break;
  }
  is_drawing = asked.size > 0;
  if (is_drawing) requestAnimationFrame(draw_some);
}

export function draw_all() {
  pictures.forEach((picture) => picture.draw_soon());
}

is_dark.addEventListener('change', draw_all);
for (const name of ['beforeprint', 'afterprint']) {
  window.addEventListener(name, () => {
    paper.is_printed = name === 'beforeprint';
    pictures.forEach((picture) => picture.draw());
  });
}
