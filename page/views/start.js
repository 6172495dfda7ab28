// The page as a whole: its views, the texts in its address, and files that are dropped beside the places for them.

import { remembered } from './address.js';
import { Desk, compile_module } from './desk.js';
import { FieldsView } from './fields.js';
import { ForecastView } from './forecast.js';
import { take_drops, tell } from './parts.js';
import { StoreView } from './store.js';
import { StreamsView } from './streams.js';
import { show_view, shown_view, start_tabs, views } from './tabs.js';
import { EXAMPLE } from '../data/example.js';

// Whether the program can be started in this browser; if not, the page says why.
async function can_start() {
  const desk = new Desk();
  try {
    await compile_module();
    await desk.ask('run', { words: [], inputs: {} });
    return true;
  } catch (fault) {
    tell('fault', `The program can't be run in this browser: ${fault.message}`);
    return false;
  } finally {
    desk.end();
  }
}

// What fails and is told nowhere else is told here.
function start_faults() {
  const told = (fault) => tell('fault', `Something failed that should not: ${fault?.message ?? fault}. Load the page anew.`);
  window.addEventListener('error', (event) => told(event.error ?? event.message));
  window.addEventListener('unhandledrejection', (event) => told(event.reason));
}

export async function start() {
  start_faults();
  if (!await can_start()) return;
  document.querySelector('main').hidden = false;
  start_tabs();
  take_drops(document.documentElement, (files) => {
    if (shown_view() === 'forecast') show_view('store');
    views[shown_view()].take(files);
  });
  Object.assign(views, { forecast: new ForecastView(), store: new StoreView(), streams: new StreamsView(), fields: new FieldsView() });
  views.forecast.put(remembered(location.hash) || EXAMPLE);
  window.addEventListener('hashchange', () => {
    const texts = remembered(location.hash);
    if (texts) views.forecast.put(texts);
  });
}

if (document.readyState === 'loading') window.addEventListener('DOMContentLoaded', start);
else start();
