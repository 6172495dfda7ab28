"""Receivers of many APIDs over one stream of Space Packets (CCSDS 133.0-B-2), which comes in any pieces."""

from __future__ import annotations

from typing import Iterator, Mapping, Tuple

from .calls import Arrival, Data, Receiver
from .errors import StoreError
from .packets import HEADER, IDLE


class Receivers:
    """A receiver for each APID, by the number of bits of its contents. As `multi` does, it counts packets of a shape that is not taken on these
    APIDs, and passes over all others."""

    def __init__(self, bits: Mapping[int, int]) -> None:
        if not all(0 <= apid < IDLE for apid in bits):
            raise StoreError("an APID is not from 0 to 2046")
        self._receivers = {apid: Receiver(number) for apid, number in bits.items()}
        self._left = bytearray()
        #: How many bytes were judged or passed over.
        self.bytes = 0
        #: How many packets were idle, had an APID without a receiver, or had a shape that is not taken.
        self.idle = self.unknown = self.misshapen = 0

    def __getitem__(self, apid: int) -> Receiver:
        return self._receivers[apid]

    def __iter__(self) -> Iterator[int]:
        return iter(self._receivers)

    @property
    def left(self) -> int:
        """How many bytes of a packet that isn't whole came so far."""
        return len(self._left)

    def feed(self, data: Data) -> Iterator[Tuple[int, Arrival]]:
        """What is found of each packet that is whole with these bytes, with its APID, in order: to be gone through to its end. A packet of
        another version raises `StoreError`, with its place: nothing is judged any more."""
        self._left += data
        while len(self._left) >= 6:
            first, second, last = HEADER.unpack_from(self._left)
            size, apid = 7 + last, first & 0x7FF
            if len(self._left) < size:
                return
            if first >> 13:
                raise StoreError(f"the packet at byte {self.bytes} is of another version")
            own = self._left[6:size]
            del self._left[:size]
            self.bytes += size
            if apid == IDLE:
                self.idle += 1
            elif apid not in self._receivers:
                self.unknown += 1
            elif first >> 11 or second >> 14 != 3:
                self.misshapen += 1
            else:
                yield apid, self._receivers[apid].receive(second & 0x3FFF, own)

    def close(self) -> None:
        """Closes all receivers."""
        for receiver in self._receivers.values():
            receiver.close()

    def __enter__(self) -> Receivers:
        return self

    def __exit__(self, *_: object) -> None:
        self.close()
