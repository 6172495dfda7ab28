// Tests of a store, after a pass.

import { after, check, press, ran, says, shown, store_of, test, texts_of, type } from './tools.js';
import { hex_words, to_hex } from '../views/bits.js';
import { kept_bits } from '../views/memory.js';
import { part } from '../views/parts.js';
import { show_view, views } from '../views/tabs.js';
import { heights_of, strip_parts } from '../views/strip.js';
import { FINDINGS, LOST, Runs, WRITTEN } from '../data/runs.js';
import { arrivals_of, packet_length } from '../data/space.js';
import { bytes_of } from '../data/text.js';

const sum = () => part('store-sum').textContent;

// A recording of so many packets of 64 bits that changes a little from one to the next.
function recording_of(count) {
  const bytes = new Uint8Array(8 * count);
  for (let t = 0; t < count; t += 1) new DataView(bytes.buffer).setBigUint64(8 * t, BigInt(t) * 0x10001n);
  return bytes;
}

// Shows a store of this name, or the example if there is none; gives its bytes.
async function open(name, store = null, bits = '64', apid = '100') {
  show_view('store');
  await views.store.open(store ? [new File([store], name)] : [], bits, apid);
  return new Uint8Array(await views.store.judged.files[0].arrayBuffer());
}

const example = () => open('The example');

test('the first wrong bit', async () => {
  const store = await example(), first = to_hex(store.subarray(6, packet_length(store, 0)));
  press('store-strip', 'End', 'p');
  check('the packet', says('store-strip'), 'packet 159 is wrong: its data can\'t be read from bit 75 on');
  await views.store.details.done;
  check('the bit', part('store-words').querySelector('.first-wrong')?.textContent, '1');
  check('the sum', sum(), '166 of 180 packets restored; 169 arrived, 2 repeats among them.');
  check('the causes', part('store-report').querySelector('p').textContent, '13 lost in 4 rows, 1 wrong.');
  check('the wrong ones', part('store-wrong').textContent, 'Wrong: 159 from bit 75');
  const kinds = [...part('store-legend').querySelectorAll('button')], [lost] = kinds.filter((kind) => kind.textContent.includes('lost'));
  lost.click();
  press('store-strip', 'End', 'p');
  const is_drawn = (kind) => views.store.strip.parts(500).some((one) => one.kind === kind);
  check('lost ones alone', `${says('store-strip').slice(0, 18)} ${is_drawn(LOST)} ${is_drawn(WRITTEN)}`, 'packet 130 is lost true false');
  lost.click();
  press('store-strip', 'Home');
  await views.store.details.done;
  check('the data', part('store-words').textContent, new RegExp(first));
});

// The losses of a store go to a forecast, which asks for its schedule and says that it is missing.
test('its losses in a forecast', async () => {
  await example();
  await after(views.forecast, () => part('to-forecast').click());
  check('its losses and what is damaged', part('script').value, 'drop,23,24,1\ndrop,61,66,1\ndrop,101,101,1\ndrop,130,133,1\ndrop,159,159,1\n');
  check('its packets', part('packets').value, '180');
  check('its schedule', part('plan').value, '');
  const missing = () => part('forecast-missing').textContent;
  check('its words', missing(), /The schedule that was sent is missing/);
  check('its opener', Boolean(part('forecast-missing').querySelector('label[for=plan-file]')), true);
  await views.forecast.plan.open(new File(['20,179,20,p\n45,179,45,fr\n'], 'plan.csv'));
  await shown(views.forecast);
  check('after it was opened', missing(), '');
  check('the mark of the example', part('forecast-example').hidden, true);
});

test('a cut store', async () => {
  const store = await example();
  await open('a cut store', store.slice(0, store.length - 3));
  check('what is drawn', views.store.strip.runs, null);
  check('the refusal', part('store-refusal').textContent, /^This store is refused: the store ends inside the packet .* The program says: store packet at byte [0-9]+ is cut/);
  check('the strip', says('store-strip'), /^no picture: store packet at byte/);
  await after(views.store, () => part('store-refusal').querySelector('button').click());
  check('what is before it', sum(), /^165 of 179 packets restored/);
});

// The packets of a store in another order.
function in_order(store, order) {
  const places = Array.from(arrivals_of(store, 100));
  return Uint8Array.from(order(places).flatMap((at) => Array.from(store.subarray(at, at + packet_length(store, at)))));
}

// A store whose packets come in the opposite order: each is taken for one 16,383 further on. What is kept of it stays small.
test('a store in disorder', async () => {
  await open('a store in disorder', in_order(await store_of(recording_of(1000), 100), (places) => places.reverse()));
  const { runs, listing } = views.store.shown, kept = [listing, ...Object.values(runs)].reduce((bytes, it) => bytes + (it?.byteLength ?? 0), 0);
  check('the runs', runs.size, 2000);
  check('the packets', runs.total, 999 * 16383 + 1000);
  check(`what is kept of ${kept} bytes`, kept <= 1000000, true);
  check('the warning', part('store-warning').textContent, /^The sequence counts fall back at 999 packets/);
});

// After `late` all that is told is of `late`, by its window; back to the order of arrival is a button.
test('a store put in order', async () => {
  const swap = (places) => places.map((_, place) => places[place ^ 1] ?? places[place]);
  await open('a store with late packets', in_order(await store_of(recording_of(200), 100, 'drop,30,31,1\n'), swap));
  const before = sum();
  type('store-window', '8');
  await after(views.store, () => part('use-late').click());
  check('the sum', sum(), '198 of 200 packets restored; 198 arrived, put in order by late with a window of 8.');
  check('the legend', part('store-legend').textContent, '198 written restoredL2 lost did not arrive');
  check('the warning', part('store-warning').hidden, true);
  views.store.span.go(7);
  check('a packet', says('store-strip'), 'packet 7 is written');
  await views.store.details.done;
  check('its content', part('store-words').textContent.includes(to_hex(recording_of(8).subarray(56))), true);
  views.store.span.go(30);
  check('a lost one', says('store-strip'), 'packet 30 is lost: it did not arrive, as packets 30 to 31');
  check('the last rows', texts_of('#store-report .end').join('|'), 'end198 arrived198 written0 repeats|late0 too late');
  await after(views.store, () => type('store-window', '0'));
  check('a narrow window', part('store-warning').textContent, /came too late for a window of 0/);
  await after(views.store, () => part('use-restore').click());
  check('the order of arrival', sum(), before);
});

// All APIDs of a store: a strip for each whose bits are given and remembered; one is opened by a click.
test('all APIDs of a store', async () => {
  const store = Uint8Array.of(...await store_of(recording_of(50), 300, 'drop,3,4,1\n'), ...await store_of(recording_of(60), 301));
  kept_bits.clear();
  show_view('streams');
  const view = views.streams, input = (apid) => view.inputs.get(apid), told = () => texts_of('#streams-strips .sum');
  await view.take([new File([store], 'two')]);
  check('before their bits are given', part('streams-sum').textContent, 'Give the bits of an APID\'s packets.');
  input('300').value = '64';
  input('301').value = '0';
  await view.run();
  check('wrong bits', `${input('301').getAttribute('aria-invalid')} ${told().length}`, 'true 0');
  input('301').value = '';
  await view.run();
  check('no bits', `${input('301').getAttribute('aria-invalid')} ${told().length}`, 'false 1');
  input('301').value = '64';
  await view.run();
  check('the sums', told().join('|'), 'APID 300: 48 of 50 packets restored; 48 arrived, 2 lost. Open APID 300|APID 301: 60 of 60 packets restored; 60 arrived. Open APID 301');
  const bits_file = (text) => view.take_text(new File([text], 'bits.csv')).then(() => `${input('300').value} ${part('streams-refusal').textContent}`);
  check('a text that is refused', await bits_file('300,72\nx,1\n'), '64 Row 2 of bits.csv is no APID with its bits; nothing of it is taken. The program says: side row 2 is wrong.');
  check('another text', await bits_file('300,72\n'), '72 ');
  check('what it remembers', kept_bits.get('300'), '64');
  check('what is lost', part('streams-sum').textContent, /^0 packets of 1 APID restored/);
  await view.take(Array.from({ length: 100 }, () => new File([store], 'two again')));
  check('which one is shown', part('streams-name').textContent, 'two again, one of 100 files: 2 APIDs.');
  check('the most lost', part('streams-sum').textContent, '108 packets of 2 APIDs restored; 2 lost, most of them of APID 300 (2).');
  await view.take([new File([new Uint8Array(9000000)], 'zeros')]);
  check('zeros', part('streams-refusal').textContent, /^This is no store: it begins with a thousand packets/);
  await view.take([new File([], 'empty')]);
  check('an empty store', part('streams-sum').textContent, 'No packet is in this store.');
  await view.take([new File([store], 'two again')]);
  check('the bits that are remembered', `${input('300').value} ${told().length}`, '64 2');
  await after(views.store, () => part('streams-strips').querySelector('button').click());
  check('the one that is opened', `${part('store-apid').value} ${sum()}`, '300 48 of 50 packets restored; 48 arrived.');
});

// An opened text may have bits of APIDs that are not in the store: they stay, and they count.
test('bits of APIDs that are not there', async () => {
  const view = views.streams, store = await store_of(recording_of(50), 300), told = () => texts_of('#streams-strips .sum').map((it) => it.split(':')[0]).join();
  const open_bits = (text) => view.take_text(new File([text], 'bits.csv'));
  show_view('streams');
  kept_bits.clear();
  await view.take([new File([store], 'one')]);
  await open_bits('300,72\n7,8\n');
  view.inputs.get('300').value = '64';
  await view.run();
  check('the bits', view.text(), '300,64\n7,8\n');
  check('the strips', told(), 'APID 300,APID 7');
  await open_bits(Array.from({ length: 64 }, (_, apid) => `${apid},8\n`).join(''));
  check('all that a run takes', `${part('streams-refusal').hidden} ${view.inputs.get('300').value}`, 'true ');
  view.inputs.get('300').value = '64';
  await view.run();
  check('one more', part('streams-refusal').textContent, /^With the APIDs of the opened text that are not listed these are too many: .* side row 65 is wrong\.$/);
});

// A text of bits that comes while another store is read is refused with that store: its name stands there, and no strip of the store before.
test('bits that come while a store is read', async () => {
  const view = views.streams, shown_now = () => `${part('streams-name').textContent} ${texts_of('#streams-strips .sum').length} ${part('streams-sum').textContent}`;
  const good = await store_of(recording_of(50), 300), cut = new File([good.slice(0, good.length - 3)], 'a cut one');
  show_view('streams');
  kept_bits.clear();
  await view.take([new File([good], 'a whole one')]);
  view.take([cut]);
  await view.take_text(new File(['300,64\n'], 'bits.csv'));
  check('a cut store', shown_now(), 'a cut one: 1 APID. 0 No picture, until what is refused is mended.');
  check('its refusal', part('streams-refusal').textContent, /^This store is refused: the store ends inside the packet/);
  view.take([new File([good], 'another one')]);
  await view.take_text(new File(['300,64\nx,1\n'], 'bits.csv'));
  check('a wrong text', `${shown_now()} ${view.inputs.get('300').value}`, 'another one: 1 APID. 0 No picture, until what is refused is mended. ');
  check('its row', part('streams-refusal').textContent, /^Row 2 of bits\.csv is no APID/);
  Object.assign(view.inputs.get('300'), { value: '64' });
  await view.run();
  check('after that', texts_of('#streams-strips .sum').join(), 'APID 300: 50 of 50 packets restored; 50 arrived. Open APID 300');
});

// With other bits than the sender's nearly all is wrong and unsynced, and the page says so. Neighbours in the report are one row.
test('other bits than the sender\'s', async () => {
  await open('other bits', await store_of(recording_of(400), 100), '72');
  const rows = part('store-report').querySelectorAll('tbody tr').length;
  check('what it says of the bits', part('store-warning').textContent, /the bits of a packet, or the APID, may not be the sender's/);
  check('few rows for 400 packets', rows > 0 && rows < 100, true);
  check('the last row', part('store-report').querySelector('.end').textContent, /^end400 arrived/);
});

// Bits that are remembered are found again, by another file and by its APID, though those of the store before were not known.
test('after a store of unknown bits', async () => {
  const known = await store_of(recording_of(20), 302), unknown = new File([await store_of(recording_of(20), 303)], 'unknown');
  kept_bits.clear();
  await open('known', known, '64', '302');
  const told = () => `${part('store-apid').value} ${part('store-bits').value} ${sum()}`, wanted = '302 64 20 of 20 packets restored; 20 arrived.';
  await views.store.take([unknown]);
  check('its bits', told(), '303  No picture, until what is refused is mended.');
  await views.store.take([new File([known], 'known again')]);
  check('another file', told(), wanted);
  await views.store.take([new File([known, await unknown.arrayBuffer(), await unknown.arrayBuffer()], 'both')]);
  check('unknown again', told(), '303  No picture, until what is refused is mended.');
  await after(views.store, () => type('store-apid', '302'));
  check('another APID', told(), wanted);
});

// A report of 99 rows has forty at first; paper, which has no button for the others, says how many they are.
test('a report of many rows', async () => {
  await open('many rows', await store_of(recording_of(400), 100, 'drop,3,395,4\n'));
  const left = () => part('store-report').querySelector('.on-paper').textContent, more = part('store-report').querySelector('[aria-label^=More]');
  check('what paper leaves out', left(), '59 rows more, which this paper leaves out.');
  more.click();
  check('after forty more', left(), '19 rows more, which this paper leaves out.');
  more.click();
  check('with all rows', `${left()}${more.hidden}`, 'true');
});

// A store may begin with many packets of another APID that have secondary headers; their counts tell it from bytes that are no store.
test('a store that begins with other packets', async () => {
  const front = Array.from({ length: 1500 }, (_, number) => [0x08, 5, 0xc0 | (number >> 8), number & 255, 0, 0, 0]);
  await open('a store behind others', Uint8Array.of(...front.flat(), ...await store_of(recording_of(50), 100)));
  check('what is restored', sum(), '50 of 50 packets restored; 50 arrived.');
});

// Idle packets are no stream, and no choice.
test('a store with idle packets', async () => {
  const idle = Array.from({ length: 80 }, (_, number) => [0x07, 0xff, 0xc0, number, 0, 1, 0, 0]), store = Uint8Array.of(...idle.flat(), ...await store_of(recording_of(50), 100));
  await open('a store with idle packets', store, '64', null);
  check('the APID that is chosen', `${part('store-apid').value} ${sum()}`, '100 50 of 50 packets restored; 50 arrived.');
  show_view('streams');
  await views.streams.take([new File([store], 'a store with idle packets')]);
  check('the APIDs', [...views.streams.inputs.keys()].join(' '), '100');
});

// Two in a hundred packets have two hundredths of the height, and any packet some of it.
test('shares of a unit', () => {
  const counts = (written, lost) => [written, lost, 0, 0, 0, 0];
  for (const [given, wanted] of [[counts(98, 2), 2], [counts(9e5, 1), 2], [counts(50, 50), 24], [counts(0, 9), 48]]) check(`the height of ${given}`, heights_of(given)[LOST], wanted);
  const runs = new Runs(FINDINGS);
  for (let first = 0; first < 110000; first += 11) {
    runs.add(first, first + 9, WRITTEN);
    runs.add(first + 10, first + 10, LOST);
  }
  const parts = strip_parts(runs, { first: 0, width: 110000 }, 1000), most = Math.max(...parts.map((one) => one.heights[LOST]));
  check('one of eleven', most <= 6 && parts.every((one) => one.heights[WRITTEN] >= 42 && one.heights[LOST] >= 2), true);
});

// A first wrong bit that comes late is in sight at once, in a box that has more rows than it shows.
test('a late wrong bit', async () => {
  const { store } = await ran('compress in=r out=store bits=4096 apid=100 robust=2 plan=p', { r: crypto.getRandomValues(new Uint8Array(1536)), p: bytes_of('') });
  const at = arrivals_of(store, 100)[0], size = packet_length(store, at), longer = new Uint8Array(size + 9);
  longer.set(store.subarray(at, at + size));
  new DataView(longer.buffer).setUint16(4, size + 9 - 7);
  await open('a long packet', longer, '4096');
  await views.store.details.done;
  const bit = part('store-words').querySelector('.first-wrong'), box = bit.closest('.bits').getBoundingClientRect(), place = bit.getBoundingClientRect();
  const is_seen = place.top >= box.top && place.bottom <= box.bottom && place.left >= box.left && place.right <= box.right;
  check('the bit is late', views.store.shown.runs.value[0] > 4000, true);
  check('it is seen', is_seen, true);
});

// If the first file that is read is given up, what was typed stays.
for (const [name, id] of [['store', 'store-bits'], ['fields', 'fields-bits']]) test(`a first file that is given up, ${name}`, async () => {
  const view = views[name], { judged, asked } = view, slow = Object.assign(new File(['x'], 'slow'), { slice: () => ({ arrayBuffer: () => new Promise(() => {}) }) });
  Object.assign(view, { judged: null, asked: null });
  const read = view.take([slow]);
  type(id, '72');
  part(`${name}-busy`).querySelector('button').click();
  await read;
  view.asking.stop();
  check('what was typed', part(id).value, '72');
  Object.assign(view, { judged, asked });
  view.put_back();
});

// A worker that can't be started is told where the example would be.
test('a worker that can\'t be started', async () => {
  const { desk: own } = views.store;
  own.end();
  own.started = () => {
    throw new Error('the program can\'t be started');
  };
  await views.store.open([], '64', '100');
  const told = part('store-refusal').textContent, drawn = views.store.strip.runs;
  delete own.started;
  await example();
  check('what it says', told, 'the program can\'t be started. ');
  check('what is drawn', drawn, null);
  check('after that', sum(), /^166 of 180/);
});

test('many bytes', () => check('132 bytes', hex_words(new Uint8Array(132)), /00 \.\. \(132 bytes\)$/));
