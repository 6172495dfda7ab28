"""Contents, Space Packets and transfer frames, made and taken apart by hand after CCSDS 133.0-B and 132.0-B: no code is shared with the program
or the Python module."""

import itertools
import struct

PERIOD, IDLE, NO_PACKET = 16384, 0x7FF, 0x7FF


def packet(apid, number, data):
    """The Space Packet of a number."""
    return struct.pack(">HHH", apid, 0xC000 | number % PERIOD, len(data) - 1) + data


def packets_of(store):
    """The Space Packets of a store, in order."""
    at = 0
    while at < len(store):
        end = at + 7 + int.from_bytes(store[at + 4:at + 6], "big")
        yield store[at:end]
        at = end


def moving(draw, bits, count):
    """Contents of packets of which few places move."""
    own = draw.getrandbits(bits)
    for _ in range(count):
        own ^= 1 << draw.randrange(min(bits, 8))
        own = draw.getrandbits(bits) if draw.random() < 0.05 else own
        yield (own << -bits % 8).to_bytes((bits + 7) // 8, "big")


def control_of(frame):
    """The error control by its polynomial, bit by bit."""
    rest = 0xFFFF
    for byte in frame:
        for place in range(7, -1, -1):
            rest = (rest << 1 & 0xFFFF) ^ (0x1021 if rest >> 15 ^ byte >> place & 1 else 0)
    return rest


def frame_of(channel, count, first, data, control=False, second=b"", operational=b"", craft=0x155):
    """A frame by its fields."""
    identifier, status = craft << 4 | channel << 1 | bool(operational), bool(second) << 15 | 3 << 11 | first
    head = struct.pack(">HBBH", identifier, count * 3 % 256, count % 256, status)
    frame = head + (bytes([len(second) - 1]) + second[1:] if second else b"") + data + operational
    return frame + (control_of(frame).to_bytes(2, "big") if control else b"")


def laid(packets, room):
    """Packets laid into the data fields of frames, the last of which an idle packet fills: of each field its first header pointer and its bytes.
    Also the fields in which each packet lies."""
    begins = list(itertools.accumulate(map(len, packets), initial=0))
    stream, idle = b"".join(packets), -begins[-1] % room
    if idle:
        stream += packet(IDLE, 0, bytes(idle - 6 + room * (idle < 7)))
    fields = [(next((begin - at for begin in begins if at <= begin < at + room), NO_PACKET), stream[at:at + room]) for at in range(0, len(stream), room)]
    return fields, [range(begin // room, (end - 1) // room + 1) for begin, end in itertools.pairwise(begins)]
