// Tests of the forecast, before a pass.

import { after, check, point, press, put, says, shown, test, texts_of, type, until } from './tools.js';
import { address_of, remembered } from '../views/address.js';
import { part } from '../views/parts.js';
import { strip_parts } from '../views/strip.js';
import { views } from '../views/tabs.js';
import { EXAMPLE } from '../data/example.js';
import { GONE, SURE } from '../data/runs.js';

const TEN_PACKETS = [
  [0, 'packet 0 is sure: it is restored, whatever values are sent'],
  [10, 'packet 10 is lost: no copy of it arrives (row 1 of the losses, drop,10,10,1)'],
  [51, 'packet 51 is lost: no copy of it arrives (row 2 of the losses, drop,50,51,1)'],
  [194, 'packet 194 is lost: no copy of it arrives (row 3 of the losses, drop,190,194,1)'],
  [195, 'packet 195 is open: it arrives, and the values sent decide whether it is restored. The latest sure packet before it is 189; after that packets 190 to 194 (5 in a row) are lost'],
  [204, 'packet 204 is sure: it is restored, whatever values are sent'],
  [250, 'packet 250 is open: it arrives, and the values sent decide whether it is restored. The latest sure packet before it is 204; after that packets 205 to 207 (3 in a row) are lost'],
  [305, 'packet 305 is sure: it is restored, whatever values are sent'],
  [599, 'packet 599 is open: it arrives, and the values sent decide whether it is restored. The latest sure packet before it is 529; after that packets 530 to 533 (4 in a row) are lost'],
  [999, 'packet 999 is lost: no copy of it arrives (row 7 of the losses, drop,999,999,1)'],
];

test('the words of ten packets', async () => {
  await put(EXAMPLE);
  for (const [at, words] of TEN_PACKETS) {
    views.forecast.span.go(at);
    check(`packet ${at}`, says('forecast-strip'), words);
  }
  check('the sum', part('forecast-sum').textContent, '821 of 1,000 packets are sure; 163 are open.');
  check('the mark of the example', part('forecast-example').hidden, false);
});

const in_sight = () => `${views.forecast.span.first} ${views.forecast.span.width}`, losses = () => part('script').value;
const KEYS = [
  ['0 Home n n n', () => says('forecast-strip'), /^packet 190 is lost/],
  ['n PageDown ArrowRight End p', () => says('forecast-strip'), /^packet 534 is open/],
  ['+ '.repeat(22).trim(), in_sight, '534 1'],
  ['0 -', in_sight, '0 1000'],
  ['Home l', () => losses() + part('forecast-change').textContent, `${EXAMPLE.script}L once more, or Enter, adds drop,0,0,1; Escape leaves it.`],
  ['l', losses, `${EXAMPLE.script}drop,0,0,1\n`],
  ['z', losses, EXAMPLE.script],
  ['w Escape Enter', () => part('plan').value, EXAMPLE.plan],
];
test('keys on the strip', async () => {
  await put(EXAMPLE);
  for (const [keys, found, wanted] of KEYS) {
    press('forecast-strip', ...keys.split(' '));
    check(`after ${keys}`, found(), wanted);
  }
  await shown(views.forecast);
});

// What is typed after a change is taken back before it, at once.
test('what is typed after a change', async () => {
  await put(EXAMPLE);
  press('forecast-strip', '0', 'Home', 'l', 'l');
  const with_row = losses(), texts = [];
  for (const last of [60, 61, 62]) type('script', `${with_row}drop,60,${last},1\n`);
  press('forecast-strip', 'l', 'l');
  for (let turn = 0; turn < 3; turn += 1) {
    press('forecast-strip', 'z');
    texts.push(losses().slice(EXAMPLE.script.length));
  }
  check('what is taken back', texts.join('|'), 'drop,0,0,1\ndrop,60,62,1\n|drop,0,0,1\n|');
  await shown(views.forecast);
});

// A drag that lasts so many milliseconds by the times of its events, however long the machine takes.
function drag(from, to, milliseconds, more) {
  for (const [kind, share, timeStamp] of [['pointerdown', from, 1000], ['pointermove', to, 1000], ['pointerup', to, 1000 + milliseconds]]) {
    document.addEventListener(kind, (event) => Object.defineProperty(event, 'timeStamp', { value: timeStamp }), { capture: true, once: true });
    point('forecast-strip', kind, share, more);
  }
}

// A pointer looks at a packet and leaves it again; a drag makes a loss, or with Shift a row of whole content, if it is meant.
test('a pointer on the strip', async () => {
  await put(EXAMPLE);
  press('forecast-strip', '0', 'Home', '+', '+');
  part('forecast-strip').setPointerCapture = () => {};
  const at = (packet) => (packet + 0.5) / 250;
  point('forecast-strip', 'pointermove', at(195));
  check('under the pointer', says('forecast-strip'), /^packet 195 is open/);
  point('forecast-strip', 'pointerleave', at(195));
  check('after it left', says('forecast-strip'), /^packet 0 is sure/);
  drag(at(100), at(110), 149, {});
  drag(at(100), at(101), 150, {});
  drag(at(100), at(120), 150, { pointerType: 'touch' });
  check('what slips add', part('script').value, EXAMPLE.script);
  press('forecast-strip', '0', 'Home', '+', '+');
  drag(at(170), at(185), 150, {});
  drag(at(170), at(185), 150, { shiftKey: true });
  delete part('forecast-strip').setPointerCapture;
  check('the loss', part('script').value, `${EXAMPLE.script}drop,170,185,1\n`);
  check('the whole ones', part('plan').value, `${EXAMPLE.plan}170,185,1,fr\n`);
  await shown(views.forecast);
});

// A packet can be open for its mask alone: whole content after a loss tells no mask.
test('a packet that is open for its mask', async () => {
  await put({ packets: '10', robust: '0', plan: '5,5,1,r\n', script: 'drop,3,3,1\n' });
  views.forecast.span.go(7);
  const why = 'The latest sure packet before it is 5; after that packet 6 builds on a mask that is not sure';
  check('packet 7', says('forecast-strip'), `packet 7 is open: it arrives, and the values sent decide whether it is restored. ${why}`);
});

// The last row that names a packet decides, within quotes too.
test('a loss within quotes', async () => {
  await put({ packets: '10', robust: '0', plan: '', script: 'drop,0,9,3\n"drop","3","3","1"\n' });
  views.forecast.span.go(3);
  check('packet 3', says('forecast-strip'), 'packet 3 is lost: no copy of it arrives (row 2 of the losses, "drop","3","3","1")');
});

test('why a packet is open', async () => {
  await put(EXAMPLE);
  views.forecast.span.go(250);
  const told = () => part('forecast-words').textContent;
  await until(() => told().includes('Add robust,208,208,1,3'));
  check('the words', told(), /It would be sure if packet 208 were whole, with its mask: Add 208,208,1,fr.*Add robust,208,208,1,3/);
});

// The advice; and where a row is taken, the focus stays there.
test('what makes all sure', async () => {
  await put(EXAMPLE);
  // (until the advice on what stood before has gone)
  const told = () => `${part('robust-told').textContent} ${part('rows-told').querySelector('code')?.textContent}`;
  const wanted = 'Robust 5 is the least that makes all sure that arrive. 195,195,1,fr\n208,208,1,fr\n534,534,1,fr';
  await until(() => told() === wanted && part('rows-told').textContent.includes('These 3 rows make all sure'));
  check('the advice', told(), wanted);
  check('the safe ranges', part('forecast-sure').textContent, /^Sure: 0 to 9, 11 to 49, 52 to 189, 2/);
  type('packets', '1001');
  part('rows-told').querySelector('button').click();
  check('rows for older texts', part('plan').value, EXAMPLE.plan);
  await put(EXAMPLE);
  await until(() => part('rows-told').textContent.includes('These 3 rows make all sure') && !part('advice').classList.contains('old'));
  part('rows-told').querySelector('button').click();
  check('what is announced', part('forecast-change').textContent, '3 rows are added to the schedule. Z takes them back.');
  await shown(views.forecast);
  check('the sum after them', part('forecast-sum').textContent, '984 of 1,000 packets are sure; all that arrive are.');
  const take = part('robust-rows').querySelectorAll('button')[5];
  take.focus();
  take.click();
  await until(() => take.textContent === 'taken');
  check('the focus', document.activeElement === take, true);
  check('its name', take.getAttribute('aria-label'), 'Take robust 5');
});

// Advice that is refused, or that fails, is told, and no number of the advice before it stays.
test('no advice', async () => {
  await put(EXAMPLE);
  const { advice } = views.forecast, { desk: own } = advice, told = () => part('rows-told').textContent + texts_of('#robust-rows .number').join('');
  await until(() => !advice.asking.timer && told().includes('These 3 rows make all sure'));
  const answers = { refused: async () => null, failed: () => Promise.reject(new Error('it ended')) }, found = [];
  for (const ask of Object.values(answers)) {
    own.ask = ask;
    await advice.ask();
    found.push(part('robust-told').textContent + told());
  }
  delete own.ask;
  check('what is told', found.join(' '), 'No advice: the program refuses what was to be tried. No advice: it ended.');
  advice.ask();
  check('at the start', part('robust-told').textContent + told(), 'Trying 0 to 7 ..');
  await until(() => told().includes('These 3 rows make all sure'));
  check('the numbers', told(), /984none/);
});

const REFUSED = [
  ['plan', '20,999,20,p\n\n50,999,50,x\n', 3, 'is not a row of a schedule: flags are letters', 'side row 2 is wrong'],
  ['script', 'drop,9,8,1\n', 1, 'is not a row of the losses: first is above last', 'script row 1 is wrong'],
];
for (const [id, text, line, words, program] of REFUSED) test(`a refused row of ${id}`, async () => {
  await put(EXAMPLE);
  document.activeElement.blur();
  await after(views.forecast, () => type(id, text));
  const note = part(`${id}-text-refusal`), told = note.textContent;
  check('the line that is marked', part(`${id}-box`).querySelector('.gutter .wrong')?.textContent, `✗ ${line}`);
  check('the text area', part(id).getAttribute('aria-invalid'), 'true');
  check('the refusal', told, new RegExp(`^Line ${line}, .*${words}.*The program says: ${program}\\.$`));
  check('the strip', says('forecast-strip'), `no picture: ${program}`);
  check('what is drawn', views.forecast.strip.runs, null);
  check('the old advice', `${part('advice').hidden} ${part('rows-told').textContent}`, 'true ');
  await put(EXAMPLE);
  check('after mending', `${note.hidden} ${says('forecast-strip')}`, /^true packet /);
});

// Of a long text five hundred lines are shown at once; all of it is judged, changed and kept.
test('a text of many lines', async () => {
  const text = Array.from({ length: 2500 }, (_, t) => `drop,${2 * t},${2 * t},1\n`).join(''), { script } = views.forecast, seen = () => part('script-box').querySelector('.hint [role=status]').textContent;
  await put({ ...EXAMPLE, packets: '6000', script: text });
  check('what is seen', seen(), 'Lines 1 to 500 of 2,501');
  part('script-box').querySelector('[aria-label^=Later]').click();
  check('the second page', `${seen()} ${part('script').value.slice(0, 16)}`, 'Lines 501 to 1,000 of 2,501 drop,1000,1000,1');
  type('script', part('script').value.replace('drop,1000,1000,1\n', ''));
  check('all of it after a change', script.text === text.replace('drop,1000,1000,1\n', ''), true);
  await shown(views.forecast);
  check('its losses', views.forecast.runs.totals[GONE], 2499);
  script.add(['drop,9,8,1']);
  script.typed();
  script.turn_to(0);
  document.activeElement.blur();
  await shown(views.forecast);
  check('the page of a refused row', `${seen()} ${part('script-box').querySelector('.gutter .wrong')?.textContent}`, 'Lines 2,001 to 2,501 of 2,501 ✗ 2500');
  await put(EXAMPLE);
});

test('refused numbers', async () => {
  await put(EXAMPLE);
  await after(views.forecast, () => type('packets', '01'));
  check('packets', part('packets-refusal').textContent, 'A number from 1 to 1,000,000, digits alone.');
  check('the sum', part('forecast-sum').textContent, 'No forecast: a number is refused.');
  type('packets', '1000');
  await after(views.forecast, () => type('robust', '8'));
  check('robust', part('robust-refusal').textContent, 'A number from 0 to 7.');
  check('packets, mended', part('packets-refusal').hidden, true);
});

test('a link', () => {
  const texts = { packets: '12', robust: '0', plan: '3,5,2,pf\n# & % ü\n', script: 'drop,1,1,1\r\n' };
  check('what a link gives', JSON.stringify(remembered(address_of(texts))), JSON.stringify(texts));
});

// A loss of one packet among a million is drawn; so is every unit of the strip, and each of a million runs is known.
test('a million packets', async () => {
  await put({ packets: '1000000', robust: '2', plan: '1000,999999,1000,pfr\n', script: 'drop,500000,500000,1\n' });
  const { span } = views.forecast, parts = strip_parts(views.forecast.runs, span, 1000);
  check('the packets', views.forecast.runs.total, 1000000);
  check('the loss', parts.some((one) => one.kind === GONE && one.to - one.from >= 1 && one.heights[GONE] === 2), true);
  check('what is covered', parts.reduce((sum, one) => sum + one.to - one.from, 0), 1000);
  await put({ packets: '1000000', robust: '2', plan: '', script: 'drop,1,999999,2\n' });
  const { runs } = views.forecast;
  check('the runs', runs.size, 1000000);
  check('the sure ones', runs.end[1], runs.totals[SURE]);
  const [half] = strip_parts(runs, span, 1000);
  check('the shares of a unit', half.heights[GONE], 24);
  press('forecast-strip', 'End', ...Array(24).fill('+'));
  check('the last packet', says('forecast-strip'), /^packet 999,999 is lost/);
  await put(EXAMPLE);
});
