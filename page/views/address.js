// The forecast's texts in the page's address, so that a link shows the same.

import { Later } from './parts.js';
import { EXAMPLE } from '../data/example.js';

const MOST_LETTERS = 30000; // longer texts are in no link

export const address_of = ({ packets, robust, plan, script }) => `#${String(new URLSearchParams({ packets, robust, plan, script })).replace(/%2C/g, ',')}`;

// The forecast's texts out of an address, or null if it has none.
export function remembered(address) {
  const found = Object.fromEntries([...new URLSearchParams(address.slice(1))].filter(([name]) => name in EXAMPLE));
  return Object.keys(found).length ? { packets: '1000', robust: '2', plan: '', script: '', ...found } : null;
}

const remembering = new Later((asked) => {
  const address = asked.plan.length + asked.script.length > MOST_LETTERS ? '#' : address_of(asked);
  if (location.hash === address || location.hash === '#tests') return;
  try {
    history.replaceState(null, '', address);
  } catch (_) {
    history.replaceState(null, '', '#'); // too long for this browser
  }
}, 300);

// Puts the forecast's texts into the page's address after a while.
export const remember = (asked) => remembering.start(asked);
