// Parts of the page, and files that come and go.

export const part = (id) => document.getElementById(id);

// A new element with attributes, listeners (on_click ..) and what stands in it.
export function element(tag, given = {}, ...inside) {
  const made = document.createElement(tag);
  for (const [name, value] of Object.entries(given)) {
    if (name.startsWith('on_')) made.addEventListener(name.slice(3), value);
    else made.setAttribute(name, value);
  }
  made.append(...inside);
  return made;
}

export const button = (words, on_click, more = {}) => element('button', { type: 'button', on_click, ...more }, ...[words].flat());

export function fill(box, ...inside) {
  box.replaceChildren(...inside);
}

export function tell(id, text) {
  fill(part(id), text);
  part(id).hidden = !text;
}

// Calls `make` after so many milliseconds with what `start` is given; a later call of `start` takes its place.
export class Later {
  constructor(make, wait) {
    Object.assign(this, { make, wait, timer: 0 });
  }

  start(...given) {
    clearTimeout(this.timer);
    this.timer = setTimeout(() => {
      this.timer = 0;
      this.make(...given);
    }, this.wait);
  }

  stop() {
    clearTimeout(this.timer);
    this.timer = 0;
  }
}

// Gives bytes or a text to the person as a file.
export function save(name, content) {
  const address = URL.createObjectURL(new Blob([content]));
  element('a', { href: address, download: name }).click();
  setTimeout(() => URL.revokeObjectURL(address), 10000);
}

// Has a part take files that are dropped on it; a text that is dragged is left alone.
export function take_drops(box, taken) {
  const mark = (event, is_over) => {
    if (!event.dataTransfer.types.includes('Files')) return false;
    event.preventDefault();
    event.stopPropagation();
    box.classList.toggle('over', is_over);
    return true;
  };
  box.addEventListener('dragover', (event) => mark(event, true));
  box.addEventListener('dragleave', () => box.classList.remove('over'));
  box.addEventListener('drop', (event) => mark(event, false) && taken([...event.dataTransfer.files]));
}

export function take_choice(chooser, taken) {
  chooser.addEventListener('change', () => {
    const files = [...chooser.files];
    chooser.value = '';
    if (files.length) taken(files);
  });
}

// Says below a field what is wrong with it, or nothing.
export function refuse_value(input, ...inside) {
  const id = input.getAttribute('aria-describedby'), is_wrong = inside.some((it) => it !== '');
  if (!part(id)) input.closest('.values, .editor').after(element('p', { class: 'refusal', id, role: 'status' }));
  fill(part(id), ...inside);
  part(id).hidden = !is_wrong;
  input.setAttribute('aria-invalid', String(is_wrong));
}

// Sets what stands in a part that may have the focus, which stays in it: at its first button, or at itself.
export function refill(box, ...inside) {
  const has_focus = box.contains(document.activeElement);
  fill(box, ...inside);
  if (!has_focus) return;
  box.tabIndex = -1;
  (box.querySelector('button') ?? box).focus({ preventScroll: true });
}
