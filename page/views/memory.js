// What this browser remembers of one day to the next: the bits that gave packets back, by APID, and by APID and how the file begins.

const NAME = 'pocket: bits by APID';
const MOST = 400; // of them, the latest
export const kept_bits = new Map();

try {
  for (const [key, bits] of JSON.parse(localStorage.getItem(NAME))) kept_bits.set(key, String(bits));
} catch (_) {
  // none, or this browser keeps nothing for a file
}

export function remember_bits(apid, front, bits) {
  for (const key of [`${apid} ${front}`, apid]) {
    kept_bits.delete(key);
    kept_bits.set(key, bits);
  }
  try {
    localStorage.setItem(NAME, JSON.stringify([...kept_bits].slice(-MOST)));
  } catch (_) {
    // then it has to be given again
  }
}
