// How a canvas steers a span: by wheel, keys, mouse and fingers. A hand that slips changes no text: only a drag of the mouse that is long
// enough to be meant makes a row, and that row is shown before the button is let go.

import { EDGE, page_unit } from './paint.js';
import { button, element } from './parts.js';

const LEAST_DRAG = 8; // units of the page
const LEAST_TIME = 150; // milliseconds for which the row of a drag was in sight

// What a key does to a span; gives whether it is a key for it. `leap` gives the packet to which N or P goes, or one below 0.
function steer_by_key(span, event, leap) {
  if (event.ctrlKey || event.metaKey || event.altKey) return false;
  const tenth = Math.max(1, Math.round(span.width / 10));
  const moves = { ArrowLeft: span.at - 1, ArrowRight: span.at + 1, PageUp: span.at - tenth, PageDown: span.at + tenth, Home: 0, End: span.total - 1 };
  const zooms = { '+': 0.5, '=': 0.5, ArrowUp: 0.5, '-': 2, _: 2, ArrowDown: 2 }, way = { n: 1, p: -1 }[event.key.toLowerCase()];
  if (event.key in moves) {
    span.go(moves[event.key], event.shiftKey);
  } else if (event.key in zooms) {
    span.zoom(zooms[event.key]);
  } else if (event.key === '0') {
    span.see_all();
  } else if (way) {
    const at = leap(way);
    if (at >= 0) span.go(at);
  } else {
    return false;
  }
  return true;
}

// Buttons that zoom a span, for hands that have no wheel and no keys. `of` tells whose they are, if there are several on a view.
export function zoom_buttons(span, of = '') {
  const one = (sign, name, act) => button(sign, act, { 'aria-label': name + of, title: name + of, class: 'zoom' });
  return element('span', { role: 'group', 'aria-label': `Zoom${of}` }, one('+', 'Zoom in', () => span.zoom(0.5)), one('−', 'Zoom out', () => span.zoom(2)),
    one('All', 'See all packets', () => span.see_all()));
}

// Has a canvas steer a span. `more.leap` tells where N and P go, `more.key` takes the keys of the view, and `more.drag` is told of a drag's
// first and last packet. Without it a drag moves what is seen.
export function steer(canvas, span, more) {
  const share = (event) => {
    const box = canvas.getBoundingClientRect(), unit = page_unit();
    return (event.clientX - box.left - EDGE * unit) / Math.max(1, box.width - 2 * EDGE * unit);
  };
  // The wheel scrolls the page, as everywhere, unless Ctrl is held or the canvas has the focus.
  canvas.addEventListener('wheel', (event) => {
    if (!event.ctrlKey && document.activeElement !== canvas) return;
    event.preventDefault();
    if (event.shiftKey || Math.abs(event.deltaX) > Math.abs(event.deltaY)) span.move(((event.deltaX || event.deltaY) / 600) * span.width);
    else span.zoom(Math.exp(Math.max(-60, Math.min(60, event.deltaY)) / 200), span.first + Math.max(0, Math.min(1, share(event))) * span.width);
  }, { passive: false });
  canvas.addEventListener('keydown', (event) => {
    if (span.total === 0 || !(more.key?.(event) || steer_by_key(span, event, more.leap))) return;
    span.kept = null;
    event.preventDefault();
  });
  steer_by_mouse(canvas, span, share, more);
  steer_by_fingers(canvas, span, share);
}

// The packet under the mouse is looked at until it leaves; a press chooses it.
function steer_by_mouse(canvas, span, share, more) {
  let pressed = null;
  const is_moved = (event) => pressed !== null && (pressed.since ??= Math.abs(event.clientX - pressed.x) >= LEAST_DRAG ? event.timeStamp : null) !== null;
  const end = () => {
    pressed = null;
    span.end_drag();
  };
  canvas.addEventListener('pointerdown', (event) => {
    if (span.total === 0 || event.button !== 0 || event.pointerType === 'touch') return;
    canvas.focus({ preventScroll: true });
    canvas.setPointerCapture(event.pointerId);
    span.kept = null;
    span.go(span.packet_at(share(event)));
    pressed = { at: span.at, x: event.clientX, first: span.first, share: share(event), since: null };
  });
  canvas.addEventListener('pointermove', (event) => {
    if (span.total === 0 || event.pointerType === 'touch') return;
    if (is_moved(event)) {
      if (more.drag) span.drag(pressed.at, span.packet_at(share(event)));
      else span.move(pressed.first + (pressed.share - share(event)) * span.width - span.first);
    } else if (pressed === null && span.from === null) {
      span.look(span.packet_at(share(event)));
    }
  });
  canvas.addEventListener('pointerleave', () => {
    if (pressed === null) span.look_away();
  });
  canvas.addEventListener('pointercancel', end);
  canvas.addEventListener('keydown', (event) => {
    if (event.key === 'Escape' && pressed) end();
  });
  canvas.addEventListener('pointerup', (event) => {
    const is_meant = more.drag && is_moved(event) && event.timeStamp - pressed.since >= LEAST_TIME;
    if (pressed) end();
    if (is_meant) more.drag(...span.chosen(), event.shiftKey);
  });
}

// A tap chooses a packet, a swipe to the side moves what is seen, two fingers zoom; a swipe up or down is left to the page.
function steer_by_fingers(canvas, span, share) {
  const fingers = new Map();
  let tap = null;
  const middle_of = () => [...fingers.values()].reduce((sum, at) => sum + at, 0) / fingers.size;
  const apart = () => (fingers.size > 1 ? Math.max(0.02, Math.max(...fingers.values()) - Math.min(...fingers.values())) : 0);
  canvas.addEventListener('pointerdown', (event) => {
    if (span.total === 0 || event.pointerType !== 'touch') return;
    fingers.set(event.pointerId, share(event));
    tap = fingers.size === 1 ? event.clientX : null;
  });
  canvas.addEventListener('pointermove', (event) => {
    if (!fingers.has(event.pointerId)) return;
    const [middle, wide] = [middle_of(), apart()];
    if (tap !== null && Math.abs(event.clientX - tap) < LEAST_DRAG) return;
    tap = null;
    const about = span.first + middle * span.width;
    fingers.set(event.pointerId, share(event));
    if (wide && apart()) span.zoom(wide / apart(), about);
    span.move((middle - middle_of()) * span.width);
  });
  const lift = (event) => {
    fingers.delete(event.pointerId);
    if (tap !== null && event.type === 'pointerup' && event.pointerType === 'touch') span.go(span.packet_at(share(event)));
    tap = null;
  };
  canvas.addEventListener('pointerup', lift);
  canvas.addEventListener('pointercancel', lift);
}
