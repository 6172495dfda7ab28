// The program as the worker has it: the proved code, as a WebAssembly module, and its nine verbs over a desk in memory.
//
// What follows is not proved: the heap and the copies are tested against the program (.ci/browser.py). An address past the memory
// ends a run, a wrong one inside it would not be seen; so there is little of it. A browser has room for some hundred memories, so one
// instance does many runs, and each finds the memory below the heap as it was at first, and no block taken.

import { bytes_of, text_of } from '../data/text.js';

const PAGE = 65536, TEXT_BYTES = 128, NO_ROOM = 11;
const MUCH = 1 << 28; // bytes of a memory that is not kept
const LARGE = 1 << 20; // bytes above which a block has whole pages
let module = null, machine = null;

class NoMemory extends Error {}

const room_for = (bytes) => bytes > LARGE ? Math.ceil(bytes / PAGE) * PAGE : 2 ** Math.max(4, Math.ceil(Math.log2(Math.max(bytes, 1))));

// Whether a memory has so many bytes, after it grew if need be.
function has_bytes(memory, bytes) {
  const missing = Math.ceil((bytes - memory.buffer.byteLength) / PAGE);
  try {
    if (missing > 0) memory.grow(missing);
  } catch (_) {
    return false;
  }
  return true;
}

// The heap that the module asks for memory. In the first four of 16 bytes before a block stands its room: a power of two, of a large one whole pages.
export function heap_of(memory, base) {
  const free = new Map(), view = () => new DataView(memory.buffer), room_of = (at) => view().getUint32(at - 16, true);
  let end = Math.ceil(base / 16) * 16;
  // Has the last block begin here, and gives it this room; or tells that there is no memory for it.
  function end_with(at, room) {
    if (!has_bytes(memory, at + room)) return false;
    end = at + room;
    view().setUint32(at - 16, room, true);
    return true;
  }
  // A free block of this room, or the least large one that has it.
  function free_block(room) {
    const enough = [...free.keys()].filter((one) => one >= room && free.get(one).length);
    return free.get(room > LARGE ? Math.min(...enough) : room)?.pop();
  }
  // A place for so many bytes, or null.
  function take(bytes) {
    const room = room_for(bytes), at = end + 16;
    return free_block(room) ?? (end_with(at, room) ? at : null);
  }
  function give(at) {
    const room = room_of(at);
    if (!free.has(room)) free.set(room, []);
    free.get(room).push(at);
  }
  // A place that grows or shrinks keeps what was in it; the last one grows where it is.
  function change(at, old, bytes) {
    const room = room_of(at);
    if (bytes <= room || (at + room === end && end_with(at, room_for(bytes)))) return at;
    const moved = take(bytes);
    if (moved === null) return null;
    new Uint8Array(memory.buffer).copyWithin(moved, at, at + Math.min(old, bytes));
    give(at);
    return moved;
  }
  return { take, give, change };
}

function new_machine() {
  let memory = null, heap = null;
  const told = (to, at) => {
    const view = new DataView(memory.buffer);
    view.setBigUint64(Number(to), at === null ? 0n : 1n, true);
    view.setBigUint64(Number(to) + 8, BigInt(at ?? 0), true);
  };
  const env = {
    rattle_alloc: (to, bytes, _align) => told(to, heap.take(Number(bytes))),
    rattle_realloc: (to, at, old, bytes, _align) => told(to, heap.change(Number(at), Number(old), Number(bytes))),
    rattle_dealloc: (at) => heap.give(Number(at)),
  };
  const calls = new WebAssembly.Instance(module, { env }).exports;
  memory = calls.memory;
  const base = Number(calls.__heap_base.value), front = new Uint8Array(memory.buffer).slice(0, base);
  const begin = () => {
    new Uint8Array(memory.buffer).set(front);
    heap = heap_of(memory, base);
    return heap;
  };
  return { calls, memory, begin };
}

// A desk of an instance whose last run is forgotten, with the calls of library/pocket.h.
function desk_of({ calls, memory, begin }) {
  const heap = begin(), view = () => new DataView(memory.buffer);
  // A place for so many bytes, or for these.
  function place(bytes) {
    const at = heap.take(bytes.length ?? bytes);
    if (at === null) throw new NoMemory(`there is no memory for ${bytes.length ?? bytes} bytes`);
    if (bytes.length) new Uint8Array(memory.buffer).set(bytes, at);
    return at;
  }
  const handle = place(new Uint8Array(16)), length = place(8), length_told = () => Number(view().getBigUint64(length, true));
  const copied = (at, bytes) => new Uint8Array(memory.buffer, at, bytes).slice();
  function call(name, ...given) {
    const status = calls[`pocket_${name}`](BigInt(handle), ...given.map(BigInt));
    if (status === 1) throw new NoMemory('there is no memory');
    if (status !== 0 && status !== NO_ROOM) throw new Error(`pocket_${name} answers ${status}`);
    return status;
  }
  // Calls what takes these bytes one by one, each by its place and length.
  function call_with(name, ...slices) {
    const places = slices.map(place);
    call(name, ...slices.flatMap((bytes, number) => [places[number], bytes.length]));
    places.forEach(heap.give);
  }
  function end() {
    const text = place(TEXT_BYTES), exit = place(1);
    call('run', text, TEXT_BYTES, length, exit);
    return { status: view().getUint8(exit), text: text_of(copied(text, length_told())) };
  }
  function get(name) {
    const bytes = bytes_of(name), at = place(bytes);
    if (call('get', at, bytes.length, place(0), 0, length) !== NO_ROOM) return new Uint8Array(0);
    const count = length_told(), to = place(count);
    call('get', at, bytes.length, to, count, length);
    return copied(to, count);
  }
  call('desk_open');
  return { put: (name, bytes) => call_with('put', bytes_of(name), bytes), word: (word) => call_with('word', bytes_of(word)), end, get };
}

export function begin_program(given) {
  module = given;
}

// Whether the instance has grown so much that its worker is to be ended: a memory never shrinks.
export const is_large = () => machine !== null && machine.memory.buffer.byteLength > MUCH;

// What a run of the program answers: its words are as on the command line, `inputs` the bytes of each name that it reads. `status` is the exit
// number, `text` that of the refusal or "", `outputs` the bytes of what `out=` and `report=` name. Without memory it is refused.
export function run_program(words, inputs) {
  try {
    machine ??= new_machine();
  } catch (fault) {
    throw new Error(`the program can't be started, since this browser has no room for it: close other pages of it (${fault.message})`);
  }
  try {
    const desk = desk_of(machine);
    for (const [name, bytes] of Object.entries(inputs)) desk.put(name, bytes);
    words.forEach(desk.word);
    const names = words.map((word) => /^(?:out|report)=(.*)$/s.exec(word)?.[1]).filter((name) => name !== undefined);
    return { ...desk.end(), outputs: Object.fromEntries(names.map((name) => [name, desk.get(name)])) };
  } catch (fault) {
    if (fault instanceof NoMemory) return { status: 5, text: `out of memory (${fault.message})`, outputs: {} };
    throw fault;
  }
}
