// What is asked of a store: its listing, what is restored of it, and that of many streams.

import { EXAMPLE_NAME, example_store } from './examples.js';
import { bytes_of_file, made_file } from './files.js';
import { run_program } from './machine.js';
import { fields_of } from '../data/records.js';
import { read_report, read_streams } from '../data/report.js';
import { read_listing } from '../data/runs.js';
import { Walk, arrivals_of } from '../data/space.js';
import { bytes_of, text_of } from '../data/text.js';

const FRONT = 16; // bytes by which a store is known again
const ALIKE = 'This is no store: it begins with a thousand packets of one and the same header, of a shape that is never judged';
const MOST_STREAMS = 64; // of one run
const IDLE = 2047; // the APID of idle packets, which is never judged

// What is told of a run of a verb that is refused: over files in memory nothing but the memory fails.
export function refused(verb, status, text) {
  return status === 1 || status === 5 ? { status: 5, text: `${text}: this store is too large for the page; the program's \`${verb}\` takes it` } : { status, text };
}

// The bytes of a store, and what its headers tell: its APIDs with how many packets each has, the lesser ones first, and the one with most
// packets. The rest of a file is not read after a header that is none.
async function* read_store(file) {
  const walk = new Walk(), store = yield* bytes_of_file(file, (bytes, read) => walk.read(bytes, read));
  const apids = [...walk.apids].filter(([apid]) => apid !== IDLE).sort((one, other) => one[0] - other[0]), [most] = [...apids].sort((one, other) => other[1] - one[1]);
  return { store, told: { apids, front: store.subarray(0, FRONT).join(' ') }, main: most ? String(most[0]) : '100', is_alike: walk.is_alike() };
}

// The bits that gave packets back: of this file, or else of the latest one with this APID.
const known_bits = (kept, front, apid) => kept.get(`${apid} ${front}`) ?? kept.get(String(apid)) ?? '';

// Looks at a store: lists it and restores it by `verb`, restore or late. Without an APID it is the one with most packets, and so it is of
// bytes whose headers are all alike; without bits they are those that are known of the APID. Without a file it is the example.
export async function* store_job({ files: [file], bits: given_bits, apid: wanted, kept, verb, window }) {
  const made = file ? null : example_store(), { store, told, main, is_alike } = yield* read_store(file ?? made_file(made));
  const apid = is_alike ? main : wanted ?? main, bits = given_bits ?? known_bits(kept, told.front, apid);
  const given = ['in=store', `bits=${bits}`, `apid=${apid}`], answer = { ...told, apid, bits, ...(made ? { made: [made], name: EXAMPLE_NAME } : {}) };
  if (verb === 'restore') {
    yield { doing: 'listing its packets' };
    Object.assign(answer, listed(store, given, Number(apid)));
    if (answer.status !== 0) return answer;
  }
  yield { doing: verb === 'late' ? 'putting its packets in order' : 'restoring its packets' };
  const words = [verb, ...given, 'out=recording', 'report=report', ...(verb === 'late' ? [`window=${window}`] : [])];
  return Object.assign(answer, restored(run_program(words, { store }), verb));
}

// The listing of a store, its runs, and where its packets begin.
function listed(store, given, apid) {
  const { status, text, outputs: { listing } } = run_program(['show', ...given, 'out=listing'], { store });
  if (status !== 0) return refused('show', status, text);
  return { status, text, listing, places: arrivals_of(store, apid), runs: read_listing(listing) };
}

// What was restored: the recording, its report, and for `late`, which has no listing, the runs of the report.
function restored({ status, text, outputs: { recording, report } }, verb) {
  if (status !== 0) return refused(verb, status, text);
  const read = read_report(text_of(report));
  return { status, text, recording, report, told: read.told(), ...(verb === 'late' ? { runs: read.runs } : {}) };
}

// Looks at all streams of a store. `streams` is a text of rows APID,bits; or a file has it, which comes after the store; or, if it is null, the
// bits are those that are known.
export async function* streams_job({ files: [file, text_file], streams: given, kept }) {
  const { store, told, is_alike } = yield* read_store(file);
  const most = [...told.apids].sort((one, other) => other[1] - one[1]).slice(0, MOST_STREAMS).sort((one, other) => one[0] - other[0]);
  const known = most.map(([apid]) => [apid, known_bits(kept, told.front, apid)]).filter(([, bits]) => bits).map((row) => `${row}\n`).join('');
  const streams = text_file ? text_of(yield* bytes_of_file(text_file)) : given ?? known, answer = { ...told, most, streams, file_of_text: text_file?.name };
  if (is_alike) return { ...answer, status: 5, text: ALIKE };
  yield { doing: 'restoring all streams' };
  const { status, text, outputs } = run_program(['multi', 'in=store', 'out=contents', 'report=report', 'streams=streams'], { store, streams: bytes_of(streams) });
  if (status !== 0) return { ...answer, ...refused('multi', status, text) };
  const rows = fields_of(streams), { reports, shape } = read_streams(text_of(outputs.report), rows.map(([apid]) => apid));
  const found = rows.map(([apid, bits]) => ({ apid, bits, runs: reports.get(apid).runs, told: reports.get(apid).told() }));
  return { ...answer, status, text, found, shape, report: outputs.report, contents: outputs.contents };
}
