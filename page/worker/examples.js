// Examples that the page makes itself, by the program's own verbs: a store of a pass, and its recording.

import { run_program } from './machine.js';
import { arrivals_of } from '../data/space.js';
import { bytes_of } from '../data/text.js';

export const EXAMPLE_NAME = 'The example';
const EXAMPLE_LOSS = 'drop,23,24,1\ndrop,61,66,1\nrepeat,80,81,1,1\ndrop,101,101,1\ndrop,130,133,1\n';

// Housekeeping of a craft in sun and shadow: so many packets of 64 bits.
function example_recording(count) {
  const bytes = new Uint8Array(8 * count);
  for (let t = 0; t < count; t += 1) {
    const turn = (t % 90) / 90, is_dark_now = turn > 0.62;
    const battery = Math.round(is_dark_now ? 3240 - 1350 * (turn - 0.62) : 2760 + 560 * Math.min(1, turn / 0.5));
    const current = is_dark_now ? -310 + (t % 7) : 420 - Math.round(300 * turn) + (t % 5);
    const temperature = Math.round(14 + 31 * Math.sin(2 * Math.PI * (turn - 0.18)));
    const wheel = -12000 + 133 * (t % 180), fields = [[is_dark_now ? 2 : 1, 56n], [battery, 44n], [current & 4095, 32n], [temperature & 255, 24n], [wheel & 65535, 8n], [t & 3, 0n]];
    new DataView(bytes.buffer).setBigUint64(8 * t, fields.reduce((sum, [value, place]) => sum | (BigInt(value) << place), 0n));
  }
  return bytes;
}

// The store of that recording as it comes over a link that loses and repeats packets, with one packet damaged on its way.
export function example_store() {
  const plan = bytes_of('20,179,20,p\n45,179,45,fr\n');
  const made = run_program(['compress', 'in=recording', 'out=store', 'bits=64', 'apid=100', 'robust=2', 'plan=plan'], { recording: example_recording(180), plan });
  const inputs = { store: made.outputs.store, loss: bytes_of(EXAMPLE_LOSS) };
  const played = run_program(['play', 'in=store', 'out=played', 'report=report', 'script=loss', 'apid=100'], inputs);
  const { played: store } = played.outputs, places = arrivals_of(store, 100);
  store[places[148] + 6] ^= 0x10;
  return store;
}
