// Files that were chosen or dropped, read piece by piece: by the page, for a worker can't read them in every browser.

const PIECE = 4 << 20;
let waiting = null; // what a piece is given to

// A file of the page for the question of this number: `place` is where the page has it.
export class PageFile {
  constructor(number, { place, name, size }) {
    Object.assign(this, { number, place, name, size });
  }

  read(from, to) {
    return new Promise((done, fail) => {
      waiting = { number: this.number, done, fail };
      postMessage({ number: this.number, wanted: { place: this.place, from, to } });
    });
  }
}

// Takes a piece that the page has read, or why it can't be read.
export function take_piece({ number, piece, fault }) {
  if (waiting?.number !== number) return;
  if (fault) waiting.fail(new Error(fault));
  else waiting.done(new Uint8Array(piece));
}

// A file of these bytes, that the worker made itself.
export const made_file = (bytes) => ({ size: bytes.length, read: async (from, to) => bytes.subarray(from, to) });

// Reads a file, and tells after each piece how much of it is there. `is_enough` is given then the bytes, and how many of them were read, and
// tells that the rest isn't needed; then the bytes are those that were read.
export async function* bytes_of_file(file, is_enough = () => false) {
  let bytes, read = 0;
  try {
    bytes = new Uint8Array(file.size);
  } catch (_) {
    throw new Error(`there is no memory for a file of ${file.size} bytes`);
  }
  while (read < file.size) {
    const piece = await file.read(read, read + PIECE);
    if (piece.length === 0) throw new Error(`the file ${file.name} ends at byte ${read}, and had ${file.size} bytes: it was changed`);
    bytes.set(piece, read);
    read += piece.length;
    if (is_enough(bytes, read)) return bytes.subarray(0, read);
    yield { read, size: file.size };
  }
  return bytes;
}
