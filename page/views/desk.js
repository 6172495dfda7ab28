// Desks: each asks a worker of its own, in which the program runs. All questions and answers go through here, each with a number.

import { part } from './parts.js';

// The policy under which the worker's text, and nothing else, may be started.
const texts = { createScriptURL: () => URL.createObjectURL(new Blob([part('worker').textContent], { type: 'text/javascript' })) };
const policy = window.trustedTypes ? window.trustedTypes.createPolicy('worker', texts) : texts;
let module = null;

// Compiles the module; what it raises is why the program can't be run here.
export async function compile_module() {
  module = await WebAssembly.compile(Uint8Array.from(atob(part('module').textContent.trim()), (letter) => letter.charCodeAt(0)));
}

export class Desk {
  constructor() {
    Object.assign(this, { worker: null, asked: null, number: 0 });
  }

  // Asks for a job over files; `told` hears what is under way. Gives the answer; or null if it was asked for something else meanwhile, or
  // ended: what comes late is dropped. What fails raises an error.
  ask(name, given, files = [], told = () => {}) {
    if (this.asked?.files.length) this.end(); // (that may take long)
    this.drop();
    const number = ++this.number;
    return new Promise((answer, fail) => {
      this.asked = { number, answer, fail, told, files };
      try {
        this.worker ??= this.started();
        this.worker.postMessage({ number, name, given, files: files.map((file, place) => ({ place, name: file.name, size: file.size })) });
      } catch (fault) {
        this.fail(fault.message);
      }
    });
  }

  started() {
    const worker = new Worker(policy.createScriptURL(''));
    worker.addEventListener('message', ({ data }) => this.hear(data));
    worker.addEventListener('error', (event) => {
      event.preventDefault();
      this.fail(`the program ended: ${event.message || 'the browser gives no cause'}`);
    });
    worker.postMessage({ module });
    return worker;
  }

  hear({ number, told, wanted, answer, fault, is_large }) {
    if (number !== this.asked?.number) return;
    if (wanted) this.read(this.asked, wanted);
    else if (told !== undefined) this.asked.told(told);
    else if (fault !== undefined) this.fail(fault);
    else this.settle('answer', answer);
    if (is_large) this.end();
  }

  // Gives the worker a piece of a file, or why it can't be read.
  async read({ number, files }, { place, from, to }) {
    const answer = { number };
    try {
      answer.piece = await files[place].slice(from, to).arrayBuffer();
    } catch (fault) {
      answer.fault = `the file ${files[place].name} can't be read: ${fault.message}`;
    }
    if (number === this.asked?.number) this.worker.postMessage(answer, answer.piece ? [answer.piece] : []);
  }

  settle(how, value) {
    const { asked } = this;
    this.asked = null;
    asked?.[how](value);
  }

  // The worker of a fault is in no state to go on.
  fail(words) {
    this.settle('fail', new Error(words));
    this.end();
  }

  drop() {
    this.settle('answer', null);
  }

  // Ends what is under way at once, with its worker.
  end() {
    this.worker?.terminate();
    this.worker = null;
    this.drop();
  }
}
