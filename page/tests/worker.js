// Tests of what the worker does beside the program: its files, the heap that the program asks for memory, and what is said without it.

import { check, test } from './tools.js';
import { bytes_of_file } from '../worker/files.js';
import { heap_of } from '../worker/machine.js';
import { refused } from '../worker/stores.js';

// What reading a file to its end gives, or why it fails.
async function read(file) {
  let count = 0;
  try {
    for await (const step of bytes_of_file(file)) count = step.read;
  } catch (fault) {
    return `${count} ${fault.message}`;
  }
  return count;
}

test('a file that is cut while it is read', async () => {
  const file = { name: 'a.store', size: 9, read: async (from) => new Uint8Array(Math.max(0, Math.min(4, 7 - from))) };
  check('what is read', await read({ ...file, size: 7 }), 7);
  check('what is said', await read(file), '7 the file a.store ends at byte 7, and had 9 bytes: it was changed');
});

const MB = 1 << 20, heap_with = (pages) => heap_of(new WebAssembly.Memory({ initial: 1, maximum: pages }), 1000);

// In 64 MB a list that doubles has room for 32 of them, and 30 are left; a large block is no larger than it has to be.
test('a list that grows to half of the memory', () => {
  const heap = heap_with(1024), first = heap.take(16);
  let at = first;
  for (let bytes = 16; bytes < 32 * MB && at !== null; bytes *= 2) at = heap.change(at, bytes, 2 * bytes);
  check('where it is', at, first);
  check('there is room for 30 more', heap.take(30 * MB) !== null, true);
  check('there is none for 30 more', heap.take(30 * MB), null);
  const other = heap_with(1024), large = other.take(33 * MB), small = other.take(16);
  check('a block above half of the memory', large !== null && small > large, true);
  other.give(large);
  check('it is had again', other.take(20 * MB), large);
});

// Blocks that come, go, grow and shrink at random keep what is in them.
test('a heap at random', () => {
  const memory = new WebAssembly.Memory({ initial: 1, maximum: 1600 }), heap = heap_of(memory, 1000), held = [];
  let state = 5, wrong = 0;
  const draw = (most) => (state = (Math.imul(state, 48271) >>> 0) % 2147483647) % most, size = () => Math.floor(2 ** (draw(2150) / 100));
  const has = ({ at, bytes, mark }, count = bytes) => {
    const found = new Uint8Array(memory.buffer, at, Math.min(bytes, count)), { length } = found;
    return Array.from({ length: 100 }, (_, share) => found[Math.floor((share * (length - 1)) / 99)]).every((byte) => byte === mark);
  };
  for (let turn = 0; turn < 1000; turn += 1) {
    const is_new = held.length < 30 && draw(2) === 0, place = draw(held.length || 1), one = is_new || !held.length ? null : held.splice(place, 1)[0], bytes = size();
    if (one && !has(one)) wrong += 1;
    if (one && draw(2)) heap.give(one.at);
    else {
      const at = one ? heap.change(one.at, one.bytes, bytes) : heap.take(bytes), block = { at, bytes, mark: turn & 255 };
      if (at === null || at % 16 || (one && !has({ ...one, at }, bytes))) wrong += 1;
      new Uint8Array(memory.buffer, at, bytes).fill(block.mark);
      held.push(block);
    }
  }
  check('blocks that are wrong', wrong + held.filter((one) => !has(one)).length, 0);
});

test('a store that has no room', () => {
  check('what is said', refused('show', 1, 'writing failed').text, 'writing failed: this store is too large for the page; the program\'s `show` takes it');
  check('of another refusal', refused('show', 4, 'store packet at byte 34 is cut').text, 'store packet at byte 34 is cut');
});
