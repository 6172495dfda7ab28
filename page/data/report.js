// Reports of `restore`, `late` and `multi`: their runs, and their rows joined where they are neighbours.

import { FINDINGS, GAP, Runs, WRITTEN } from './runs.js';

export const HEAD = 'first,last,cause,value';
const MOST_ROWS = 200; // so many are shown

// The rows of one report as they come: the runs of what it names and of what is between, which is written.
export class Report {
  constructor() {
    this.runs = new Runs(FINDINGS);
    this.rows = []; // the first of them, each with its neighbours of the same cause
    this.counts = FINDINGS.map(() => ({ stretches: 0, packets: 0 }));
    this.open = null; // the row that may still grow
    this.late = null;
  }

  // Takes a row of packets; gives whether it is one.
  take(first, last, kind, value) {
    const { runs } = this;
    if (!(kind > 0 && first >= runs.total && last >= first)) return false;
    if (first > runs.total) runs.add(runs.total, first - 1, WRITTEN);
    const place = runs.add(first, last, kind, 0, value);
    if (kind === GAP) runs.level[place] = value;
    this.join(first, last, kind, value);
    return true;
  }

  join(first, last, kind, value) {
    const { open } = this;
    this.counts[kind].packets += last - first + 1;
    if (open && open.kind === kind && open.last + 1 === first) {
      Object.assign(open, { last, low: Math.min(open.low, value), high: Math.max(open.high, value) });
      return;
    }
    this.open = { first, last, kind, low: value, high: value };
    this.counts[kind].stretches += 1;
    if (this.rows.length < MOST_ROWS) this.rows.push(this.open);
  }

  // Takes the row `end`: so many arrived, were written, were repeats.
  take_end(arrived, written, repeats) {
    const { runs } = this, more = written - runs.totals[WRITTEN];
    if (more > 0) runs.add(runs.total, runs.total + more - 1, WRITTEN);
    runs.end = [arrived, written, repeats];
  }

  // Takes the cells of a line; gives whether it is a line of a report.
  take_line([first, last, cause, more]) {
    if (first === 'end' && !this.runs.end) this.take_end(Number(last), Number(cause), Number(more));
    else if (first === 'late' && this.runs.end) this.late = Number(last);
    else return this.take(Number(first), Number(last), KINDS.get(cause), Number(more));
    return true;
  }

  told() {
    const { rows, counts, late } = this;
    return { rows, counts, late, end: this.runs.end, stretches: counts.reduce((sum, count) => sum + count.stretches, 0) };
  }
}

const KINDS = new Map(FINDINGS.map((finding, kind) => [finding.word, kind]));

// Reads a report of `restore` or `late`. What is no such report of `written` packets (if that is given) is answered as a text.
export function read_report(text, written = null) {
  const lines = text.split('\n'), report = new Report();
  if (lines[0].trim() !== HEAD) return `This is no report of restore or late: its first line is not ${HEAD}.`;
  for (let row = 1; row < lines.length; row += 1) {
    const cells = lines[row].trim().split(',');
    if (cells[0] && !report.take_line(cells)) return `Line ${row + 1} of the report is not a row of a report: ${lines[row].slice(0, 60)}`;
  }
  const { end } = report.runs;
  if (!end) return 'The report has no last row (end): the store was not read to its end.';
  if (written === null || end[1] === written) return report;
  return `The report is of another recording: it says that ${end[1]} packets were written, and the recording has ${written}.`;
}

// Reads a report of `multi`: a report for each APID, and how many packets had another shape.
export function read_streams(text, apids) {
  const reports = new Map(apids.map((apid) => [apid, new Report()]));
  let shape = 0;
  for (const line of text.split('\n').slice(1)) {
    const [apid, ...cells] = line.split(',');
    if (apid === 'shape') shape = Number(cells[0]);
    else if (apid) reports.get(apid).take_line(cells);
  }
  return { reports, shape };
}
