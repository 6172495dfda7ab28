// The page's views and their tabs.

import { part } from './parts.js';
import { draw_all } from './picture.js';

const NAMES = ['forecast', 'store', 'streams', 'fields'];
export const views = {}; // by their names

export function show_view(name) {
  for (const other of NAMES) {
    const tab = part(`tab-${other}`), is_shown = other === name;
    tab.setAttribute('aria-selected', String(is_shown));
    tab.tabIndex = is_shown ? 0 : -1;
    part(`view-${other}`).hidden = !is_shown;
  }
  draw_all();
}

export const shown_view = () => NAMES.find((name) => !part(`view-${name}`).hidden);

export function start_tabs() {
  NAMES.forEach((name, place) => {
    part(`tab-${name}`).addEventListener('click', () => show_view(name));
    part(`tab-${name}`).addEventListener('keydown', ({ key }) => {
      const next = NAMES.at((place + ({ ArrowRight: 1, ArrowLeft: -1 }[key] ?? 0)) % NAMES.length);
      show_view(next);
      part(`tab-${next}`).focus();
    });
  });
}
