// The page with its tests, which run if its address ends in #tests; each writes a line.

import { fault_of, put, tests, until } from './tools.js';
import './cases.js';
import './forecast.js';
import './store.js';
import './fields.js';
import './worker.js';
import './random.js';
import '../views/start.js';
import { element, fill } from '../views/parts.js';
import { show_view } from '../views/tabs.js';
import { EXAMPLE } from '../data/example.js';

async function tell_tests() {
  await until(() => !document.querySelector('main').hidden);
  const lines = [], told = element('pre', { id: 'tests', hidden: '' });
  document.body.append(told);
  for (const [name, steps] of tests) {
    const fault = await fault_of(steps);
    lines.push(fault ? `FAILED ${name}: ${fault}` : `ok ${name}`);
    fill(told, lines.join('\n'));
  }
  const failed = lines.filter((line) => line.startsWith('FAILED ')).length;
  show_view('forecast');
  await put(EXAMPLE);
  told.hidden = false;
  fill(told, [...lines, `${lines.length - failed} passed, ${failed} failed`].join('\n'));
}

if (location.hash === '#tests') tell_tests();
