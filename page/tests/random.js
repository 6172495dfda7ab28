// Many runs in one page; and actions at random while each answer comes late at random: what is shown together is of one file, and true.

import { check, desk, press, ran, shown, store_of, test, type, wait } from './tools.js';
import { Desk } from '../views/desk.js';
import { kept_bits } from '../views/memory.js';
import { part } from '../views/parts.js';
import { views } from '../views/tabs.js';
import { bytes_of, text_of } from '../data/text.js';

const RUNS = 2000, HELD = 85, ACTIONS = 1000, MOST_DELAY = 12;
let state = 82;

function draw(most) {
  state = (Math.imul(state, 48271) >>> 0) % 2147483647;
  return state % most;
}

// With so many memories held beside them, each run finds its own, in four workers one after the other, of which those that did theirs are idle.
test('two thousand runs', async () => {
  const desks = Array.from({ length: 4 }, () => new Desk()), held = Array.from({ length: HELD }, () => new WebAssembly.Memory({ initial: 1 })), loss = bytes_of('drop,3,4,1\n');
  for (let run = 0; run < RUNS; run += 1) {
    const packets = 10 + (run % 90), words = `forecast out=y packets=${packets} robust=2 plan=p script=s`.split(' ');
    const { text, outputs } = await desks[Math.floor((4 * run) / RUNS)].ask('run', { words, inputs: { p: bytes_of(''), s: loss } });
    check(`run ${run}`, text || text_of(outputs.y), new RegExp(`\nend,${packets},.*\n$`));
  }
  desks.forEach((one) => one.end());
  check('the memories held', held.length, HELD);
});

// A store of so many packets for each APID, and what is true of it: for APID, bits and verb the numbers that its report ends with.
async function made(name, counts) {
  const pieces = [], truth = new Map();
  for (const [apid, count] of counts) pieces.push(await store_of(new Uint8Array(8 * count).fill(apid & 127), apid, `drop,${count % 7},${count % 7 + 1},1\n`));
  const store = new Uint8Array(await new Blob(pieces).arrayBuffer());
  for (const [apid, bits, verb] of [100, 300, 301].flatMap((it) => [64, 72].flatMap((size) => [[it, size, 'restore'], [it, size, 'late']]))) {
    const { u } = await ran(`${verb} in=s out=o report=u bits=${bits} apid=${apid}${verb === 'late' ? ' window=64' : ''}`, { s: store });
    truth.set(`${apid} ${bits} ${verb}`, /^end,(.*)$/m.exec(text_of(u))[1].split(',').map(Number));
  }
  return { name, truth, file: new File([store], name) };
}

// The text of a part of the page, with its numbers as digits alone.
const told_by = (id) => part(id).textContent.replace(/,(?=\d{3})/g, '');

// What is true of the forecast of the texts that stand in the fields: its sum and its sure ranges, or none; by these texts.
const truths = new Map();
async function forecast_truth() {
  const [packets, robust, plan, script] = ['packets', 'robust', 'plan', 'script'].map((id) => part(id).value), key = `${packets} ${robust} ${plan} ${script}`;
  if (!truths.has(key)) {
    const words = ['forecast', 'out=y', `packets=${packets}`, `robust=${robust}`, 'plan=p', 'script=s'], { status, outputs } = await desk.ask('run', { words, inputs: { p: bytes_of(plan), s: bytes_of(script) } });
    const rows = status ? [] : [...text_of(outputs.y).matchAll(/^(\d+),(\d+),sure$/gm)].map(([, first, last]) => (first === last ? first : `${first} to ${last}`));
    const sure = rows.length ? `Sure: ${rows.slice(0, 16).join(', ')}${rows.length > 16 ? ', ..' : ''}.` : 'None is sure.';
    truths.set(key, status ? '' : `${/^end,\d+,(\d+)/m.exec(text_of(outputs.y))[1]} of ${packets} ${sure}`);
  }
  return truths.get(key);
}

// What is wrong with what the forecast shows, or nothing: it is true of texts that stood in the fields; if nothing is under way, of those there.
async function forecast_fault(is_still) {
  const truth = await forecast_truth(), sum = told_by('forecast-sum'), now = views.forecast.runs ? `${sum.replace(/ packets? .*/s, '')} ${told_by('forecast-sure')}` : '';
  const fits = is_still ? now === truth : [...truths.values(), ''].includes(now);
  return fits ? '' : `of a forecast it says ${sum} ${now}, not ${truth}`;
}

// What is wrong with what the view of a store shows, or nothing: its name, its sum and its report's last row are of one file; and, if nothing
// is under way, of the bits and the APID that stand in their fields.
function store_fault(stores, is_still) {
  const { runs } = views.store.strip, told = part('store-name').textContent, store = stores.find(({ name }) => told.startsWith(`${name}:`));
  if (!runs) return '';
  if (!store) return `the name is ${told}`;
  const [, given, total, arrived] = told_by('store-sum').match(/^(\d+) of (\d+) .*?; (\d+) arrived/);
  const row = told_by('store-report'), verb = /put in order/.test(part('store-sum').textContent) ? 'late' : 'restore';
  const is_of = ([all, written, repeats]) => Number(given) === written && Number(arrived) === all && row.includes(`end${all} arrived${written} written${repeats} repeat`);
  const keys = is_still ? [`${part('store-apid').value} ${part('store-bits').value} ${verb}`] : [...store.truth.keys()];
  const fits = keys.some((key) => store.truth.has(key) && is_of(store.truth.get(key))) && part('store-strip').getAttribute('aria-valuemax') === String(total - 1);
  return fits ? '' : `of ${told} it says ${part('store-sum').textContent} ${row}, for ${keys.join('; ')}`;
}

// What is wrong with what the view of a recording shows, or nothing.
function fields_fault(stores) {
  const { table } = views.fields, told = part('recording-name').textContent, sum = told_by('fields-sum');
  if (!table) return '';
  const store = stores.find(({ name }) => told.includes(`of ${name}:`)), count = parseInt(sum, 10);
  const fits = store ? [...store.truth.values()].some(([, written]) => written === count) : told.startsWith('The example') && count === 166;
  return fits && table.count === count ? '' : `of ${told} it says ${sum}`;
}

// What is wrong with what the view of all APIDs shows, or nothing: each sum is of the store that is named.
function streams_fault(stores) {
  const told = part('streams-name').textContent, store = stores.find(({ name }) => told.startsWith(`${name}:`)), truth = (apid, bits) => store.truth.get(`${apid} ${bits} restore`);
  const is_of = (sum, [all, written]) => sum.includes(`: ${written} of`) && sum.includes(`; ${all} arrived`);
  const wrong = [...part('streams-strips').querySelectorAll('.sum')].map((it) => it.textContent).find((sum) => !['64', '72'].some((bits) => is_of(sum, truth(parseInt(sum.slice(5), 10), bits))));
  return wrong ? `of ${told} it says ${wrong}` : '';
}

const pick = (list) => list[draw(list.length)];
const click = (id) => part(id).click();

// What may be done to the forecast.
const FORECAST_ACTS = [
  () => type('packets', pick(['40', '60', 'x', '60'])),
  () => type('robust', pick(['0', '2', '9', '2'])),
  () => type('plan', pick(['', '9,9999,9,pfr\n', '9,9\n', '20,9999,20,p\n'])),
  () => type('script', pick(['', 'drop,5,7,1\n', 'drop,5\n', 'drop,20,24,1\ndrop,30,30,1\n'])),
  () => press('forecast-strip', ...pick([['l', 'l'], ['w', 'w'], ['z'], ['n'], ['Home']])),
  () => click(pick(['anew', 'undo'])),
  () => views.store.shown && click('to-forecast'),
  () => part('forecast-busy').querySelector('button').click() ?? type('robust', '2'),
];

// What may be done to the other views. Which store is to be shown at last is kept in `last`.
function acts_on(stores, last) {
  const one = pick(stores), is_shown = Boolean(views.store.shown), take = () => [views.store.take([one.file]), Object.assign(last, { name: one.name })];
  return [
    take, take,
    () => type('store-bits', pick(['64', '72', 'x', '64'])),
    () => type('store-apid', pick(['100', '300', '301'])),
    () => part('store-busy').querySelector('button').click() ?? Object.assign(last, { name: views.store.judged?.files[0].name }),
    () => click(pick(['use-late', 'use-restore'])),
    () => is_shown && click('to-fields'),
    () => is_shown && click('to-streams'),
    () => views.streams.take([one.file]),
    () => [...views.streams.inputs.values()].forEach((input) => Object.assign(input, { value: '64' }).dispatchEvent(new Event('input'))),
    () => part('streams-strips').querySelector('.sum button')?.click() ?? (part('streams-strips').querySelector('.sum button') && Object.assign(last, { name: views.streams.judged.files[0].name })),
    () => click('fields-example'),
    () => type('fields-bits', pick(['64', '8', 'x'])),
    () => part('fields-busy').querySelector('button').click(),
  ];
}

// After so many actions: what is wrong once nothing is under way, or nothing.
async function still_fault(stores, last) {
  for (const view of Object.values(views)) await shown(view);
  const told = part('store-name').textContent;
  return store_fault(stores, true) || await forecast_fault(true) || (views.store.shown && !told.startsWith(`${last.name}:`) ? `${told} is shown, and ${last.name} was opened last` : '');
}

test('a thousand actions', async () => {
  const stores = [], last = { name: 'one' }, { hear } = Desk.prototype;
  for (const [name, counts] of [['one', [[100, 40]]], ['two', [[100, 55], [300, 30]]], ['three', [[300, 70], [301, 20]]]]) stores.push(await made(name, counts));
  kept_bits.clear();
  await views.streams.take([stores[1].file]);
  await views.store.open([stores[0].file], '64', '100');
  click('fields-example');
  await shown(views.fields);
  desk.hear = hear;
  Desk.prototype.hear = function late(data) {
    setTimeout(() => hear.call(this, data), draw(MOST_DELAY));
  };
  let fault = '';
  try {
    for (let turn = 0; turn < ACTIONS && !fault; turn += 1) {
      pick(pick([acts_on(stores, last), FORECAST_ACTS]))();
      await forecast_truth();
      await wait(draw(4) ? draw(20) : 0);
      fault = store_fault(stores, false) || fields_fault(stores) || streams_fault(stores) || await forecast_fault(false) || (turn % 25 === 24 ? await still_fault(stores, last) : '');
      check(`after ${turn + 1} actions`, fault, '');
    }
  } finally {
    Desk.prototype.hear = hear;
  }
});
