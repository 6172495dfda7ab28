"""Space Packets (CCSDS 133.0-B-2)."""

import errno
import struct
from dataclasses import dataclass
from typing import BinaryIO, Iterator

from .errors import StoreError

# The APID of idle packets, which is above all others; after how many packets the sequence count begins anew; the most bytes of data.
IDLE, PERIOD, MOST_DATA = 2047, 16384, 65536
# A header: version, type and APID; sequence flags and count; how many bytes of data follow the first one.
HEADER = struct.Struct(">HHH")


@dataclass(frozen=True)
class SpacePacket:
    """A Space Packet (CCSDS 133.0-B-2) of telemetry, unsegmented and without a secondary header."""

    #: 0 to 2046.
    apid: int
    #: The sequence count, 0 to 16,383.
    count: int
    data: bytes


def packed(packet: SpacePacket) -> bytes:
    """The bytes of a Space Packet: its header of six bytes and its data, 1 to 65,536 bytes."""
    if not 1 <= len(packet.data) <= MOST_DATA or not 0 <= packet.apid < IDLE or not 0 <= packet.count < PERIOD:
        raise StoreError("no Space Packet has this APID, count or length")
    return HEADER.pack(packet.apid, 0xC000 | packet.count, len(packet.data) - 1) + packet.data


def space_packets(source: BinaryIO, apid: int) -> Iterator[SpacePacket]:
    """The Space Packets of an APID in a file or a pipe, each as soon as it is whole. Those of other APIDs are passed over."""
    at = 0
    while header := _read(source, 6):
        first, second, last = HEADER.unpack(header.ljust(6))
        body = _read(source, last + 1)
        if len(header) < 6 or len(body) <= last:
            raise StoreError(f"the packet at byte {at} is cut")
        if first >> 13:
            raise StoreError(f"the packet at byte {at} is of another version")
        if first & 0x7FF == apid:
            if first >> 11 or second >> 14 != 3:
                raise StoreError(f"the packet at byte {at} has a shape that is not taken")
            yield SpacePacket(apid, second & 0x3FFF, body)
        at += 6 + len(body)


def _read(source: BinaryIO, number: int) -> bytes:
    """So many bytes, or fewer at the end."""
    parts = []
    while number and (part := source.read(number)) != b"":
        if part is None:
            raise BlockingIOError(errno.EAGAIN, "the source is in non-blocking mode")
        parts.append(part)
        number -= len(part)
    return b"".join(parts)
