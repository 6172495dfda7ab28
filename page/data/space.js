// The Space Packets of a store: where each begins. What is no store is told by the program alone.

// The bytes of the Space Packet that begins here, with its header.
export const packet_length = (store, at) => 7 + store[at + 4] * 256 + store[at + 5];

const apid_at = (store, at) => ((store[at] & 7) << 8) | store[at + 1];

// Whether a header is of telemetry that is not segmented and has no secondary header.
const has_shape = (store, at) => (store[at] & 0x18) === 0 && (store[at + 2] & 0xc0) === 0xc0;

const HEADER = 6, MOST_ALIKE = 1000;

// Whether a header is of a shape that is never judged, and the same as the first one.
const has_first_header = (store, at) => !has_shape(store, at) && store.subarray(0, HEADER).every((byte, place) => byte === store[at + place]);

// Walks over the headers of a store while it is read, and counts the packets of each APID. It stops at the first header that is none: of
// another version; or if so many packets at the beginning have one and the same header, with its count, of a shape that is never judged, as
// in bytes that are all zeros.
export class Walk {
  constructor() {
    Object.assign(this, { at: 0, apids: new Map(), alike: 0, is_none: false });
  }

  is_alike() {
    return this.alike > MOST_ALIKE;
  }

  // Reads on in bytes of which so many are there; gives whether all of the packet that is none is.
  read(bytes, count) {
    while (!this.is_none && this.at + 7 <= count) {
      const { at, apids } = this, end = at + packet_length(bytes, at), apid = apid_at(bytes, at);
      if (this.alike >= 0) this.alike = has_first_header(bytes, at) ? this.alike + 1 : -1;
      this.is_none = bytes[at] >> 5 !== 0 || this.is_alike();
      if (this.is_none || end > count) break;
      apids.set(apid, (apids.get(apid) || 0) + 1);
      this.at = end;
    }
    return this.is_none && this.at + packet_length(bytes, this.at) <= count;
  }
}

export function arrivals_of(store, apid) {
  const places = [];
  for (let at = 0; at + 7 <= store.length; at += packet_length(store, at)) {
    if (apid_at(store, at) === apid && at + packet_length(store, at) <= store.length) places.push(at);
  }
  return Float64Array.from(places);
}
