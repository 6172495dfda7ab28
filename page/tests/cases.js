// What the page runs against what the program did: the same words and inputs, and the status, the text and all bytes of the outputs.

import { check, desk, test } from './tools.js';
import { part } from '../views/parts.js';

for (const { name, words, inputs, status, text, outputs } of JSON.parse(part('cases').textContent)) test(name, async () => {
  const given = Object.fromEntries(Object.entries(inputs).map(([one, bytes]) => [one, Uint8Array.fromBase64(bytes)]));
  const done = await desk.ask('run', { words, inputs: given });
  check('the status', done.status, status);
  check('the text', done.text, text);
  for (const [one, wanted] of Object.entries(outputs)) {
    const found = done.outputs[one], bytes = Uint8Array.fromBase64(wanted);
    check(`the output ${one}`, found?.length === bytes.length && found.every((byte, place) => byte === bytes[place]), true);
  }
});
