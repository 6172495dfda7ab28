// The time axis of a recording, on the page alone: a start and a step, or a field that has seconds.

import { element, fill, part, refuse_value } from './parts.js';
import { time_words } from './scale.js';

export class TimeAxis {
  fields = [];

  constructor(changed) {
    for (const id of ['time-start', 'time-step']) part(id).setAttribute('aria-describedby', `${id}-refusal`);
    for (const id of ['time-kind', 'time-start', 'time-step', 'time-field']) {
      part(id).addEventListener('input', () => {
        this.tell();
        changed();
      });
    }
    this.tell();
  }

  show(fields) {
    const { value } = part('time-field');
    this.fields = fields;
    fill(part('time-field'), ...fields.map((field) => element('option', { value: field.name }, field.name)));
    if (fields.some((field) => field.name === value)) part('time-field').value = value;
  }

  // Takes what stands in the fields, and says of a field of this kind of axis what is wrong with it.
  tell() {
    const kind = part('time-kind').value, [start, step] = ['time-start', 'time-step'].map((id) => part(id).value.trim());
    part('time-start-box').hidden = kind === 'number';
    part('time-step-box').hidden = kind !== 'step';
    part('time-field-box').hidden = kind !== 'field';
    this.start = start === '' ? null : Date.parse(/[zZ]$|[+-]\d\d:\d\d$/.test(start) ? start : `${start}Z`);
    this.step = step === '' ? NaN : Number(step);
    const is_start = kind === 'number' || this.start === null || Number.isFinite(this.start), is_step = kind !== 'step' || Number.isFinite(this.step);
    refuse_value(part('time-start'), is_start ? '' : 'A day and a time, as 2026-03-01T00:00:00. Until then times are counted from 0.');
    refuse_value(part('time-step'), is_step ? '' : 'A number, as 0.5. Until then the axis has the packets\' numbers.');
  }

  // What gives the time of a packet in words, or null if the axis has the packets' numbers. `view` has the places and the units.
  words(view) {
    const kind = part('time-kind').value, { step } = this, start = Number.isFinite(this.start) ? this.start : null;
    const field = this.fields.find((one) => one.name === part('time-field').value);
    if (kind === 'step' && Number.isFinite(step)) return (number) => time_words(number * step, start);
    if (kind !== 'field' || !field) return null;
    const { scale, offset } = view.unit_of(field);
    return (number) => {
      const t = view.places.of(number);
      return t < 0 ? '–' : time_words(field.values[t] * scale + offset, start);
    };
  }
}
