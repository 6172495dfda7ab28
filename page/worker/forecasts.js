// What is asked of a forecast: the forecast, why a packet is open, and what would make all sure. Each answer is read off the program's own
// forecasts, and nothing else decides.

import { run_program } from './machine.js';
import { trouble_of } from '../data/forecast.js';
import { with_rows } from '../data/records.js';
import { OPEN, SURE, read_forecast } from '../data/runs.js';
import { bytes_of } from '../data/text.js';

const MOST_ROWS = 64, MOST_TURNS = 12;

// A forecast of what was asked, packets, robust, plan and script as texts, with more rows of the schedule. It has runs and bytes, or the status
// and text of a refusal.
function forecast(asked, rows = []) {
  const words = ['forecast', 'out=forecast', `packets=${asked.packets}`, `robust=${asked.robust}`, 'plan=schedule', 'script=losses'];
  const { status, text, outputs } = run_program(words, { schedule: bytes_of(with_rows(asked.plan, rows)), losses: bytes_of(asked.script) });
  return status === 0 ? { status, text, runs: read_forecast(outputs.forecast), bytes: outputs.forecast } : { status, text, runs: null };
}

export function* forecast_job(asked) {
  return forecast(asked);
}

// What would make an open packet sure: rows of whole content for its `heads`, one for each packet that would have to be whole, or a robustness
// of the first of these. Each turn is a forecast.
export function* why_job({ asked, at }) {
  const found = { rows: [], heads: [], is_sure: false, robust: null };
  let { runs } = forecast(asked);
  for (let turn = 0; turn < MOST_TURNS && runs && !found.is_sure; turn += 1) {
    const { head } = trouble_of(runs, at);
    found.rows.push(`${head},${head},1,fr`);
    found.heads.push(head);
    ({ runs } = forecast({ ...asked, packets: at + 1 }, found.rows));
    found.is_sure = runs?.kind_at(at) === SURE;
    yield;
  }
  if (found.heads.length) found.robust = yield* robust_for(asked, found.heads[0], at);
  return found;
}

// The least required robustness of the packet at which the trouble begins that makes that packet sure, and whether `at` is sure then; or null.
function* robust_for(asked, head, at) {
  const is_sure = (row, packet) => forecast({ ...asked, packets: packet + 1 }, [row]).runs?.kind_at(packet) === SURE;
  for (let value = 1; value <= 7; value += 1) {
    const row = `robust,${head},${head},1,${value}`;
    if (is_sure(row, head)) return { row, value, is_enough: is_sure(row, at) };
    yield;
  }
  return null;
}

// What would make all sure: each `robust` from 0 to 7, told as it is tried, and then rows of whole content.
export function* advice_job({ asked }) {
  for (let robust = 0; robust <= 7; robust += 1) {
    const { runs } = forecast({ ...asked, robust: String(robust) });
    if (!runs) return null;
    yield { robust: { robust, sure: runs.totals[SURE], open: runs.totals[OPEN] } };
  }
  return yield* rows_for_all(asked);
}

// The rows of whole content that make all packets sure that arrive: at each turn a row for the first open packet of the forecast. Each turn
// tells the rows and how many packets are still open; the last one is the answer.
function* rows_for_all(asked) {
  const rows = [];
  for (;;) {
    const { runs } = forecast(asked, rows);
    if (!runs) return null;
    const head = runs.first_of(OPEN), told = { rows: [...rows], open: runs.totals[OPEN] };
    if (head < 0 || rows.length === MOST_ROWS) return told;
    yield told;
    rows.push(`${head},${head},1,fr`);
  }
}
