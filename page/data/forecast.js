// What a forecast says of a packet, in words.

import { cells_in, records_of } from './records.js';
import { GONE, SURE } from './runs.js';
import { grouped, range_words } from './text.js';

// The packet at which an open packet's trouble begins: the first one after the latest sure packet that arrives and is not sure.
// `sure` is that latest sure packet, or -1; `lost` are the ranges of lost packets between the two.
export function trouble_of(runs, at) {
  let place = runs.kind.lastIndexOf(SURE, runs.place_of(at));
  const sure = place < 0 ? -1 : runs.last(place), lost = [];
  for (place += 1; place < runs.size && runs.kind[place] === GONE; place += 1) lost.push([runs.first[place], runs.last(place)]);
  return { sure, head: runs.first[place], lost };
}

const MOST_RANGES = 16;

// The ranges of packets that are sure, of many the first of them.
export function sure_words(runs) {
  const ranges = [];
  for (let place = 0; place < runs.size && ranges.length <= MOST_RANGES; place += 1) {
    const [first, last] = [runs.first[place], runs.last(place)];
    if (runs.kind[place] === SURE) ranges.push(first === last ? grouped(first) : `${grouped(first)} to ${grouped(last)}`);
  }
  return ranges.length ? `sure: ${ranges.slice(0, MOST_RANGES).join(', ')}${ranges.length > MOST_RANGES ? ', ..' : ''}` : 'none is sure';
}

// The row of a script that drops a packet, and its number: the last row that names it decides. Null if none does.
function dropping_row(script, at) {
  const rows = records_of(script), row = rows.findLastIndex(({ text }) => {
    const [, first, last, step] = cells_in(text).map(Number);
    return at >= first && at <= last && (at - first) % step === 0;
  });
  return row >= 0 && cells_in(rows[row].text)[0] === 'drop' ? { number: row + 1, text: rows[row].text } : null;
}

export function forecast_words(runs, script, at) {
  const name = `packet ${grouped(at)}`, kind = runs.kind_at(at);
  if (kind === SURE) return `${name} is sure: it is restored, whatever values are sent`;
  if (kind === GONE) {
    const row = dropping_row(script, at);
    return `${name} is lost: no copy of it arrives${row ? ` (row ${row.number} of the losses, ${row.text})` : ''}`;
  }
  const { sure, head, lost } = trouble_of(runs, at);
  const after = sure < 0 ? 'No packet before it is sure; ' : `The latest sure packet before it is ${grouped(sure)}; after that `;
  const loss = lost.map(([first, last]) => `${range_words(first, last)} (${last - first + 1} in a row) ${first === last ? 'is' : 'are'} lost`).join(', ');
  return `${name} is open: it arrives, and the values sent decide whether it is restored. ${after}${loss || `packet ${grouped(head)} builds on a mask that is not sure`}`;
}
