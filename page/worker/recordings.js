// What is asked of a recording: its table of fields, and where its packets stand among all numbers.

import { EXAMPLE_NAME, example_store } from './examples.js';
import { bytes_of_file, made_file } from './files.js';
import { run_program } from './machine.js';
import { EXAMPLE_FIELDS } from '../data/example.js';
import { fields_of } from '../data/records.js';
import { HEAD, Report, read_report } from '../data/report.js';
import { Places, mark_limits, mark_outside, read_table, stretches_of } from '../data/table.js';
import { bytes_of, grouped, text_of } from '../data/text.js';

const MOST_VALUES = 20e6, FRONT = 40;
const VALUES = `values, more than this page draws (${grouped(MOST_VALUES)}): the program's \`table\` writes them`;

// Which of some files are a recording, its report and a text of fields: by their roles, or by how they begin. What begins as no text of
// these two is a recording; of several the last one is taken, and one that comes alone has no report.
async function* roles_of({ files, roles, fields }) {
  const found = { recording: -1, report: -1, fields };
  for (const [place, file] of files.entries()) {
    const role = roles[place] ?? role_of(text_of(await file.read(0, FRONT)));
    if (role === 'fields') found.fields = text_of(yield* bytes_of_file(file));
    else found[role === 'kept' ? 'report' : role] = place;
    if (role === 'recording' && !roles[place] && roles[found.report] === 'kept') found.report = -1;
  }
  return found;
}

function role_of(front) {
  if (front.startsWith(HEAD)) return 'report';
  return /^\s*("?)(field|limit)\1,/.test(front) ? 'fields' : 'recording';
}

// The table of a recording by a text of fields. The files are what is shown and what comes in its place, each with its role or none; without
// files it is the example.
export async function* recording_job(given) {
  const example = given.files.length ? null : example_of_recording();
  const asked = example ? { roles: ['recording', 'report'], bits: '64', fields: EXAMPLE_FIELDS, files: example.made.map(made_file) } : given;
  const found = yield* roles_of(asked), { files, bits } = asked, told = { ...found, bits, ...example };
  const words = ['table', 'in=recording', 'out=table', 'report=outside', 'fields=fields', `bits=${bits}`];
  const run = (recording) => run_program(words, { recording, fields: bytes_of(found.fields) });
  if (found.recording < 0) return { ...told, status: 0, text: '' };
  // (what is wrong with the bits or the fields is told before much is read)
  const tried = run(new Uint8Array(0)), { size } = files[found.recording];
  if (tried.status !== 0) return { ...told, status: tried.status, text: tried.text };
  const values = Math.floor(size / Math.ceil(Number(bits) / 8)) * Math.max(1, fields_of(found.fields).filter(([word]) => word === 'field').length);
  if (values > MOST_VALUES) return { ...told, status: 5, text: `the recording has ${grouped(values)} ${VALUES}` };
  const recording = yield* bytes_of_file(files[found.recording]), report = found.report < 0 ? null : yield* bytes_of_file(files[found.report]);
  yield { doing: 'reading its fields' };
  const { status, text, outputs } = run(recording);
  if (status !== 0) return { ...told, status, text };
  yield { doing: 'reading its values' };
  return { ...told, status, text, ...table_of(outputs, found.fields, report && text_of(report)) };
}

function table_of({ table: bytes, outside }, fields, text) {
  const table = read_table(bytes), { count } = table, report = text === null ? new Report() : read_report(text, count);
  if (typeof report === 'string') return { status: 6, text: report };
  if (text === null) report.take_end(count, count, 0);
  const { runs } = report, any = mark_outside(table, outside);
  mark_limits(table, fields);
  return { table, runs, any, outside, stretches: stretches_of(table, new Places(runs)) };
}

function example_of_recording() {
  const { outputs } = run_program(['restore', 'in=store', 'out=recording', 'report=report', 'bits=64', 'apid=100'], { store: example_store() });
  return { made: [outputs.recording, outputs.report], name: EXAMPLE_NAME };
}
