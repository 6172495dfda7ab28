// A view. What it asks for is one value, and what it shows another one, which is replaced whole when the answer is there.

import { Desk } from './desk.js';
import { Later, button, element, fill, part } from './parts.js';
import { Runs } from '../data/runs.js';
import { grouped } from '../data/text.js';

const SOON = 200; // milliseconds after which it is told

function progress_words({ read, size, doing }) {
  if (doing) return doing;
  const [unit, name] = size >= 1e6 ? [1e6, 'MB'] : [1e3, 'kB'];
  return `reading ${grouped(Math.floor(read / unit))} of ${grouped(Math.ceil(size / unit))} ${name}`;
}

// What is under way, in words, with a button that ends it. The picture beside it is dim meanwhile.
class Busy {
  // `id` is that of the view, whose pictures are dim while it goes on; `cancel` ends it.
  constructor(id, cancel) {
    const main = part(`view-${id}`).querySelector('.main');
    Object.assign(this, { pictures: [...main.children], words: element('span', { role: 'status' }), cancel: button('Cancel', cancel) });
    this.box = element('p', { class: 'busy', id: `${id}-busy`, hidden: '' }, this.words, ' ', this.cancel);
    this.show = new Later(() => Object.assign(this.box, { hidden: false }), SOON);
    main.prepend(this.box);
  }

  begin(doing) {
    this.tell({ doing });
    this.cancel.hidden = false;
    this.show.start();
    this.dim(true);
  }

  tell(progress) {
    fill(this.words, `${progress_words(progress)} ..`);
  }

  end() {
    this.show.stop();
    this.box.hidden = true;
    this.dim(false);
  }

  // It was ended before it was done: the picture of before stays, and stays dim.
  stop() {
    this.show.stop();
    fill(this.words, 'Cancelled. What is shown is from before.');
    this.cancel.hidden = true;
    this.box.hidden = false;
  }

  dim(is_old) {
    for (const picture of this.pictures) {
      picture.classList.toggle('old', is_old);
      picture.setAttribute('aria-busy', String(is_old));
    }
  }
}

export class View {
  // `job` is what the worker does.
  constructor(job, id = job) {
    Object.assign(this, { job, desk: new Desk(), asked: null, judged: null, busy: new Busy(id, () => this.cancel()) });
  }

  // Asks for what is to be shown of some files; the answer to an earlier question is never shown. Files that are made come in their place.
  async ask(given, files, doing = files.length ? `reading ${files[0].name}` : 'making the example') {
    this.asking?.stop();
    this.asked = { given, files };
    this.busy.begin(doing);
    let answer;
    try {
      answer = await this.desk.ask(this.job, given, files, (progress) => this.busy.tell(progress));
    } catch (fault) {
      answer = { status: 5, text: fault.message };
    }
    if (!answer) return;
    const before = this.judged, { made, runs, ...more } = answer;
    this.asked.files = made ? made.map((bytes) => new File([bytes], more.name)) : files;
    this.judged = this.asked = { ...given, ...this.asked, ...more, runs: runs && Runs.of(runs) };
    this.show(this.judged, before);
    if (!this.desk.asked) this.busy.end();
  }

  // What was answered, if it is no refusal.
  get shown() {
    return this.judged?.status === 0 ? this.judged : null;
  }

  get runs() {
    return this.shown?.runs ?? null;
  }

  // Chooses a packet, and goes to the strip.
  go(at) {
    this.span.go(at);
    this.strip.canvas.focus();
  }

  // Puts what is shown into the fields again, in a view whose fields belong to a file. Before anything is shown what was typed stays.
  put_back() {}

  // Ends what is under way: what is shown is from before, and so is all that is asked next.
  cancel() {
    this.desk.end();
    this.asked = this.judged;
    this.busy.stop();
    this.put_back();
  }
}

// Which of several files is shown.
export const name_of = (file, count) => count > 1 ? `${file.name}, one of ${count} files` : file.name;
