// The worker: all runs of the program, off the page's thread. Its first message is the module; each other one is a question (a number, the
// name of a job and what it is given) or a piece of a file. It answers each question with messages of its number: what is under way, pieces
// that it wants, and then the answer or a fault. Between the steps of a job it looks for the next question, which ends the one before.

import { PageFile, take_piece } from './files.js';
import { forecast_job, why_job, advice_job } from './forecasts.js';
import { begin_program, is_large, run_program } from './machine.js';
import { recording_job } from './recordings.js';
import { store_job, streams_job } from './stores.js';

const JOBS = {
  *run({ words, inputs }) {
    return run_program(words, inputs);
  },
  forecast: forecast_job,
  why: why_job,
  advice: advice_job,
  store: store_job,
  streams: streams_job,
  recording: recording_job,
};

let latest = 0;

// The memory of all lists in an answer, which is handed over and not copied.
function memory_of(answer, found = new Set()) {
  if (ArrayBuffer.isView(answer)) found.add(answer.buffer);
  else if (answer && typeof answer === 'object') Object.values(answer).forEach((value) => memory_of(value, found));
  return found;
}

async function work({ number, name, given, files }) {
  const steps = JOBS[name]({ ...given, files: files.map((file) => new PageFile(number, file)) });
  for (;;) {
    const step = await steps.next();
    if (number !== latest) return;
    if (step.done) {
      postMessage({ number, answer: step.value, is_large: is_large() }, [...memory_of(step.value)]);
      return;
    }
    postMessage({ number, told: step.value ?? {} });
    await new Promise((done) => setTimeout(done, 0)); // (the next question is heard)
    if (number !== latest) return;
  }
}

addEventListener('message', ({ data }) => {
  if (data.module) begin_program(data.module);
  else if (!data.name) take_piece(data);
  else {
    latest = data.number;
    work(data).catch((fault) => postMessage({ number: data.number, fault: String(fault.message ?? fault) }));
  }
});
