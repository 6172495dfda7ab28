// Units, scales and times, on the page alone: the program's table, its report and its limits have the values as they are.

import { fields_of } from '../data/records.js';

export const NO_UNIT = { unit: '', scale: 1, offset: 0, is_own: false };

// The units of a text with rows name,unit,scale or name,unit,scale,offset; or the number of the first row that is none.
export function read_units(text) {
  const units = new Map();
  for (const [row, cells] of fields_of(text).entries()) {
    const [name, unit, scale = '1', offset = '0'] = cells.map((cell) => cell.trim());
    const is_row = name && unit !== undefined && cells.length <= 4 && scale !== '' && offset !== '' && Number.isFinite(Number(scale) + Number(offset)) && Number(scale) !== 0;
    if (!is_row) return { units, wrong: row + 1 };
    units.set(name, { unit, scale: Number(scale), offset: Number(offset), is_own: true });
  }
  return { units, wrong: 0 };
}

// A number with at most six digits that count.
export const short_number = (number) => String(Number(number.toPrecision(6)));

// A value in its unit; `cell` is how the table has it.
export function value_words(unit, cell) {
  if (!unit.is_own) return cell;
  const scaled = unit.scale === 1 && unit.offset === 0;
  return scaled ? `${cell} ${unit.unit}` : `${short_number(Number(cell) * unit.scale + unit.offset)} ${unit.unit} (${cell})`;
}

// Where ticks stand between two values, at most so many: by the least step of 1, 2 or 5 times a power of ten that is no less than `least_step`.
export function ticks_between(low, high, most, least_step = 0) {
  const least = Math.max(least_step, ((high - low) / most) * (1 - 1e-9));
  if (!(least > 0)) return [low];
  const power = 10 ** Math.floor(Math.log10(least)), step = power * [1, 2, 5, 10].find((factor) => power * factor >= least), found = new Set();
  const start = Math.ceil(low / step - 1e-9) * step, tick = (place) => start + place * step;
  for (let place = 0; place < most + 2 && tick(place) <= high + step * 1e-9; place += 1) found.add(Number(tick(place).toPrecision(12)));
  return [...found];
}

function clock_words(seconds) {
  const all = Math.round(1000 * Math.abs(seconds)), whole = Math.floor(all / 1000), two = (number) => String(number).padStart(2, '0');
  const rest = all % 1000 ? `.${String(all % 1000).padStart(3, '0')}` : '';
  return `${seconds < 0 && all ? '−' : ''}${Math.floor(whole / 3600)}:${two(Math.floor(whole / 60) % 60)}:${two(whole % 60)}${rest}`;
}

// What the time axis says: of each packet so many seconds after a start, or since it. `start` is a time in milliseconds or null.
export function time_words(seconds, start) {
  if (!Number.isFinite(seconds)) return '–';
  if (start === null) return clock_words(seconds);
  const time = new Date(Math.round(start + 1000 * seconds));
  return Number.isFinite(time.getTime()) ? time.toISOString().replace('T', ' ').replace(/(\.000)?Z$/, '') : '–';
}
