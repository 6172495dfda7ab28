// What the tests of the page use. Limits on time are wide, for a machine that has much to do.

import { Desk } from '../views/desk.js';
import { EDGE } from '../views/paint.js';
import { part } from '../views/parts.js';
import { views } from '../views/tabs.js';
import { bytes_of } from '../data/text.js';

const SLOW = 40; // seconds
export const desk = new Desk();

export const tests = []; // all, each a name and its steps
let faults = []; // of the test that runs

export function test(name, steps) {
  tests.push([name, steps]);
}

// Tells what is not as it is wanted: a value, or a text that a pattern finds.
export function check(name, found, wanted) {
  if (wanted instanceof RegExp ? !wanted.test(found) : found !== wanted) faults.push(`${name} is ${JSON.stringify(found)}, not ${wanted instanceof RegExp ? wanted : JSON.stringify(wanted)}`);
}

// What a test finds wrong, or nothing.
export async function fault_of(steps) {
  faults = [];
  try {
    await steps();
  } catch (thrown) {
    faults.push(`it threw ${thrown.message}`);
  }
  return faults.join('; ');
}

// What a run of the program gives.
export async function ran(words, inputs) {
  const done = await desk.ask('run', { words: words.split(' '), inputs });
  if (done.status !== 0) throw new Error(done.text);
  return done.outputs;
}

// A store of packets of 64 bits with this APID, with what a script loses and repeats of it.
export async function store_of(recording, apid, script = '') {
  const given = { r: recording, p: bytes_of('20,4294967295,20,p\n45,4294967295,45,fr\n'), s: bytes_of(script) }, { out } = await ran(`compress in=r out=out bits=64 apid=${apid} robust=2 plan=p`, given);
  return (await ran(`play in=out out=played report=told script=s apid=${apid}`, { ...given, out })).played;
}

// Waits until `holds` does, for a while at most.
export async function until(holds) {
  const end = Date.now() + 1000 * SLOW;
  while (!holds()) {
    if (Date.now() > end) return false;
    await wait(20);
  }
  return true;
}

// Waits until a view shows what it was asked for last.
export async function shown(view) {
  if (!await until(() => !view.desk.asked && !view.asking?.timer)) throw new Error('the picture did not come');
}

// Puts the texts of a forecast, and waits until it is shown.
export const put = (texts) => after(views.forecast, () => views.forecast.put(texts));

// What a view says of the packet that its strip has chosen: the strip in a few words, and the view in full, but for the values of its fields.
export function says(id) {
  const name = id.slice(0, -6), short = part(id).getAttribute('aria-valuetext'), [packet, kind] = short.split(', ');
  if (!views[name].strip.runs) return short;
  const words = name === 'store' ? views.store.details.words : part(`${name}-words`).querySelector('.state').textContent.replace(/^P/, 'p').slice(0, -1);
  return words.startsWith(packet) && short.length < 80 && kind ? words : `${words} but its strip ${short}`;
}

export function press(id, ...keys) {
  for (const key of keys) part(id).dispatchEvent(new KeyboardEvent('keydown', { key, bubbles: true, cancelable: true }));
}

export function type(id, text) {
  part(id).value = text;
  part(id).dispatchEvent(new Event('input', { bubbles: true }));
}

// Does something, and waits until a view shows what is asked for then.
export async function after(view, act) {
  act();
  await shown(view);
}

// The texts of all parts that a selector finds.
export const texts_of = (selector) => Array.from(document.querySelectorAll(selector), (it) => it.textContent);

// What a pointer does at a share of a strip's width.
export function point(id, kind, share, more = {}) {
  const box = part(id).getBoundingClientRect();
  const clientX = box.left + EDGE + share * (box.width - 2 * EDGE);
  part(id).dispatchEvent(new PointerEvent(kind, { clientX, clientY: box.top + 60, pointerId: 1, button: 0, bubbles: true, cancelable: true, ...more }));
}

export const wait = (milliseconds) => new Promise((done) => setTimeout(done, milliseconds));
