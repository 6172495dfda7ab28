// Tests of a recording's numbers.

import { after, check, press, says, test, texts_of, type } from './tools.js';
import { part } from '../views/parts.js';
import { read_units, ticks_between, time_words, value_words } from '../views/scale.js';
import { show_view, views } from '../views/tabs.js';
import { EXAMPLE_FIELDS } from '../data/example.js';
import { columns_of } from '../data/table.js';

const sum = () => part('fields-sum').textContent;
const rows = (id) => [...part(id).querySelectorAll('tbody tr')].map((row) => [...row.children].map((cell) => cell.textContent).join(' ').trim());
const values = () => rows('fields-words').join('; ');

const open = (name, recording, bits) => views.fields.open(new File([recording], name), bits, null);

// Shows the example, and gives the bytes of its recording and of its report.
async function example() {
  await after(views.fields, () => part('fields-example').click());
  return Promise.all(views.fields.judged.files.map((file) => file.arrayBuffer()));
}

test('fields', async () => {
  show_view('fields');
  await example();
  press('fields-strip', 'Home', 'ArrowRight');
  check('the packet', `${says('fields-strip')}: ${values()}`, 'packet 1, at place 1 of the recording: temperature_C -13 -10 to 40 below; battery_mV 2772 2800 to 3300 below; mode 1 –; current_mA 418 -500 to 500; wheel_rpm -11867 –');
  views.fields.span.go(63);
  check('a gap', says('fields-strip'), 'packet 63 is lost: it is not in the recording');
  const curves = [...document.querySelectorAll('#curves canvas')], names = curves.map((curve) => curve.getAttribute('aria-label').slice(10));
  check('the curves', names.join(' '), 'temperature_C battery_mV mode current_mA wheel_rpm');
  views.fields.span.go(52);
  check('a curve', curves[1].getAttribute('aria-valuetext'), 'packet 52: battery_mV is 3320, above its limit 3300');
  check('a stretch', rows('fields-stretches').includes('battery_mV 44 55 3320, above 3300'), true);
  check('all curves at once', texts_of('#curves .now').map((it) => it.split(',')[0]).join(' '), '33 3320 1 249 -5084');
  [...part('fields-list').children].find((it) => it.textContent.includes('battery')).querySelector('input').click();
  const drawn_rows = texts_of('#fields-stretches tbody th');
  check('stretches of what is drawn', `${new Set(drawn_rows).size} ${drawn_rows[0]}`, '1 temperature_C');
  press('fields-strip', 'Home', ...Array(40).fill('n'));
  check('N among what is drawn', values(), /temperature_C -?\d+ -10 to 40 (below|above)/);
  part('choose-found').click();
  type('fields', '');
  await views.fields.run();
  check('no fields', sum(), '166 packets with 0 fields; no limits are given; 14 packets are missing.');
  type('fields', 'field,0,8,u,mode\nfield,60,8,u,late\n');
  await views.fields.run();
  check('a refused row', part('fields-box').querySelector('.gutter .wrong').textContent, '✗ 2');
  check('its words', part('fields-text-refusal').textContent, /is not a field or a limit/);
  check('the strip', says('fields-strip'), 'no picture: side row 2 is wrong');
  views.fields.rows.text = EXAMPLE_FIELDS;
  await views.fields.open(views.fields.judged.file, '64', new File(['first,last,cause,value\nend,9,9,0\n'], 'x'));
  check('another report', part('fields-refusal').textContent, /^The report is of another recording/);
});

const unread = Object.assign(new File(['x'], 'a folder'), {
  slice() {
    throw new Error('it is no file');
  },
});

// A recording, its report and its fields, dropped together or one by one, are known by what they hold.
test('files that are dropped', async () => {
  const [recording, report] = await example(), view = views.fields;
  part('fields-bits').value = '64';
  for (const [name, text] of [['all three, of which one has quotes', EXAMPLE_FIELDS.replace(/[^,\n]+/g, '"$&"')], ['all three', EXAMPLE_FIELDS]]) {
    await view.take([new File([text], 'fields.csv'), new File([report], 'report.csv'), new File([recording], 'restored.rec')]);
    check(name, sum(), '166 packets with 5 fields; 106 values are out of limits; 14 packets are missing.');
    check(`a stretch of ${name}`, rows('fields-stretches').includes('battery_mV 44 55 3320, above 3300'), true);
  }
  await view.take([new File([recording], 'restored.rec')]);
  check('the mark of the example\'s limits', part('fields-example-mark').hidden, false);
  check('the recording alone', sum(), '166 packets with 5 fields; 106 values are out of limits.');
  await view.take([new File([report], 'report.csv')]);
  check('its report after it', `${view.runs.total} ${view.table.count}`, '180 166');
  await view.take([unread]);
  check('what can\'t be read', part('fields-refusal').textContent, 'the file a folder can\'t be read: it is no file');
  check('what is kept', part('recording-name').textContent, /^restored\.rec: .*, with its report\.$/);
  await view.run();
  check('the report stays', `${view.runs?.total} ${view.table?.count}`, '180 166');
  await view.take([new File(['x'], 'x.csv')], 'report');
  check('no report', part('fields-refusal').textContent, /^This is no report/);
  check('the recording stays', part('recording-name').textContent, /^restored\.rec:/);
  await after(view, () => part('drop-report').click());
  await view.take([new File([recording], 'slow.rec')]);
  part('fields-bits').value = '57';
  await view.take([new File([new Uint8Array(320e6)], 'zeros')]);
  check('too many values', part('fields-refusal').textContent, /^the recording has 200,000,000 values, more than this page draws \(20,000,000\): th/);
});

test('an empty recording', async () => {
  views.fields.rows.text = 'field,0,8,u,value\n';
  await open('nothing', new Uint8Array(0), '8');
  check('the sum', sum(), '0 packets with 1 field; no limits are given.');
  check('a value', views.fields.value_words(views.fields.table.fields[0], 0), 'value is not there');
});

test('a million values', async () => {
  const recording = new Uint8Array(1000000);
  recording[777777] = 200;
  views.fields.rows.text = 'field,0,8,u,value\nlimit,value,0,100\n';
  await open('a million', recording, '8');
  const { table, places, span } = views.fields, columns = columns_of(table.fields[0], places, span, 1000);
  check('the packets', table.count, 1000000);
  check('what is seen of the one value', columns.filter((one) => one.is_above && one.high === 200).length, 1);
  press('fields-strip', 'Home', 'n');
  check('the value', `${says('fields-strip')}: ${values()}`, 'packet 777,777: value 200 0 to 100 above');
});

test('values of 64 bits', async () => {
  const recording = new Uint8Array(16).fill(255);
  recording[7] = 254;
  views.fields.rows.text = 'field,0,64,u,large\nfield,0,8,u,small\n';
  await open('64 bits', recording, '64');
  const ranges = Array.from(document.querySelectorAll('.curve-head b'), (name) => `${name.textContent} ${name.nextSibling.textContent}`);
  check('the ranges', ranges.join('; '), 'large 18446744073709551614 to 18446744073709551615; small 255 to 255');
});

// Of many fields those are drawn that are out of limits, and others if they are searched and chosen.
test('fields that are chosen', async () => {
  views.fields.rows.text = `${Array.from({ length: 12 }, (_, place) => `field,${4 * place},4,u,f${place}\n`).join('')}limit,f9,0,3\n`;
  await open('twelve fields', new Uint8Array(60).fill(0x77), '48');
  const drawn = () => texts_of('#curves b').join(' ');
  check('at first', drawn(), 'f9 f0 f1 f2 f3 f4 f5 f6');
  type('fields-search', '11');
  check('what is found', part('fields-list').textContent.trim(), 'f11');
  part('fields-list').querySelector('input').click();
  check('with another one', drawn(), 'f9 f0 f1 f2 f3 f4 f5 f6 f11');
  part('choose-out').click();
  check('those out of limits', drawn(), 'f9');
  type('fields-search', '');
  await open('twelve fields', new Uint8Array(60), '0');
  check('after a refusal', part('fields-list').textContent + part('fields-found').textContent, '');
  await open('twelve fields', new Uint8Array(60), '48');
  check('those that are still chosen', drawn(), 'f9');
  views.fields.chooser.chosen.clear();
});

// Units and times are the page's alone, and the value itself is told beside them.
test('units and times', async () => {
  await example();
  type('units', 'battery_mV,V,0.001\n');
  views.fields.span.go(52);
  check('a value', document.querySelectorAll('#curves canvas')[1].getAttribute('aria-valuetext'), 'packet 52: battery_mV is 3.32 V (3320), above its limit 3300');
  type('units', 'battery_mV,V,nought\n');
  check('a wrong row', part('units-text-refusal').textContent, /^Row 1 is not a field with its unit/);
  type('units', '');
  const axis = (texts) => Object.entries(texts).forEach(([name, text]) => type(`time-${name}`, text));
  axis({ kind: 'step', start: '2026-03-01T00:00:00', step: '60' });
  check('a time', texts_of('#fields-words .state').join(), 'Packet 52, 2026-03-01 00:52:00, at place 50 of the recording.');
  const refused = () => ['start', 'step'].map((name) => part(`time-${name}-refusal`).textContent).join('|'), wrong_step = 'A number, as 0.5. Until then the axis has the packets\' numbers.';
  axis({ step: '0,5' });
  check('a wrong step', `${refused()} ${texts_of('#fields-words .state').join()}`, `|${wrong_step} Packet 52, at place 50 of the recording.`);
  axis({ step: '' });
  check('no step', refused(), `|${wrong_step}`);
  axis({ step: '0.5', start: 'noon' });
  check('a wrong start', `${refused()} ${part('time-start').getAttribute('aria-invalid')}`, 'A day and a time, as 2026-03-01T00:00:00. Until then times are counted from 0.| true');
  axis({ start: '', kind: 'field', field: 'mode' });
  check('what is right', `${refused()} ${part('time-step-refusal').hidden}`, '| true');
  check('a time of a field', texts_of('#fields-words .state').join(), 'Packet 52, 0:00:01, at place 50 of the recording.');
  type('time-kind', 'number');
  check('ticks', ticks_between(-14, 42, 4).join(' '), '0 20 40');
  check('ticks nearer than two numbers of 64 bits', ticks_between(2 ** 63, 2 ** 63 + 2048, 5).length, 1);
  check('a clock', time_words(3725.5, null), '1:02:05.500');
  check('a hundred steps', `${time_words(100 * 4.35, null)}, ${time_words(100 * 4.35, 0)}`, '0:07:15, 1970-01-01 00:07:15');
  check('less than a millisecond', `${time_words(-0.0004, null)} ${time_words(-59.9996, null)}`, '0:00:00 −0:01:00');
  check('an offset', value_words(read_units('t,C,0.5,-10').units.get('t'), '30'), '5 C (30)');
});
