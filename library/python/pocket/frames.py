HELP = """python3 -m pocket frames length=N [vcid=N] [scid=N] [sync=1] [control=1]: takes the Space Packets of one virtual channel out of TM
Transfer Frames.

    python3 -m pocket frames length=1115 vcid=0 sync=1 control=1 out=pass.store < pass.frames

Standard input is frames (CCSDS 132.0-B) of `length` bytes each, 8 to 2048, one after the other: with `sync=1` each after the mark
1A CF FC 1D, with `control=1` each with its frame error control, two bytes at its end that are part of the length. `vcid` is the
virtual channel, 0 to 7, `scid` the spacecraft, 0 to 1023: those of the first frame if they aren't said. Frames of others are passed over
and counted. Frames that are coded, as by Reed and Solomon, or randomized are for other tools, such as gr-satellites, which take that off
first.

The output is a store: the Space Packets in order, over frames too, without the idle ones. On standard error, or in the file report=, is
told what is missing, with the byte at which the next frame begins and the packet that it cuts, and at the end how many frames and packets
there were. A frame counts as missing if its error control, its version or its pointer is wrong, and without error control also if it has
the number of the one before and other bytes; it drops the packet that it cuts and no other. A frame that comes again, equal in all bytes,
is passed over. Frames are counted by 8 bits, so that 256 missing ones in a row are seen only if they cut a packet.

The status is 4, in one line, if no frame of the channel is good, or more than half of all frames are bad, as with a wrong length; of
another channel or spacecraft are bad if none was said. It is 3 if no `vcid` was said and another channel has packets. What this command
decides is tested, not proved.
"""

import binascii
from dataclasses import dataclass
from typing import BinaryIO, Counter, Dict, Iterator, List, NamedTuple, Optional, Tuple

from .packets import IDLE
from .tool import LOOK, Tell, ToolError, given, number_of, opened, outputs, read

MARK = bytes.fromhex("1ACFFC1D")
# What the pointer to the first header says if no packet begins in the frame, and if the frame has idle data alone.
NO_PACKET, IDLE_DATA = 0x7FF, 0x7FE
KEYS = {"length": (8, 2048), "vcid": (0, 7), "scid": (0, 1023), "sync": (0, 1), "control": (0, 1)}
# The status if there is no good frame, or too few, how many are read before that is judged, and how many lines wait for it.
POOR, FEW, LINES = 4, 100, 100_000


class Frame(NamedTuple):
    """A TM Transfer Frame: the byte at which it begins, its number in its virtual channel, from 0 to 255, the place of the first packet that
    begins in its data, or NO_PACKET or IDLE_DATA, its data, and all its bytes."""

    place: int
    number: int
    first: int
    data: bytes
    whole: bytes


class Bad(Exception):
    """What is wrong with a frame, which counts as missing."""


def frame_of(place: int, whole: bytes, has_control: bool) -> Frame:
    """The parts of a frame, whose error control and version were looked at."""
    status = int.from_bytes(whole[4:6], "big")
    if status >> 14 & 1:
        raise Bad("carries no packets, by its synchronization flag")
    start = 6 + ((whole[6] & 0x3F) + 1 if status >> 15 else 0)
    end = len(whole) - 4 * (whole[1] & 1) - 2 * has_control
    if start >= end:
        raise Bad("has no room for data: length= may not be its length")
    first = status & 0x7FF
    if first < IDLE_DATA and first >= end - start:
        raise Bad("points past its data for its first packet: length= may not be its length")
    return Frame(place, whole[3], first, whole[start:end], whole)


def framed(source: BinaryIO, length: int, mark: bytes, tell: Tell, sums: Counter[str]) -> Iterator[Tuple[int, bytes]]:
    """Frames, each after its mark if they have marks, and with the byte at which it begins. Bytes before a mark are left out."""
    at, stray, ahead, size = 0, 0, b"", length + len(mark)
    while ahead := ahead + read(source, size - len(ahead)):
        is_end, found = len(ahead) < size, ahead.find(mark)
        # (a mark may begin in the last bytes, if more come)
        skip = found if found >= 0 else len(ahead) if is_end else len(ahead) - len(mark) + 1
        at, stray, ahead = at + skip, stray + skip, ahead[skip:]
        if stray and (found >= 0 or is_end):
            sums["stray"] += 1
            tell(f"{stray} bytes at byte {at - stray} are no frame: no mark begins there")
            stray = 0
        if found == 0 and is_end:
            tell(f"the frame at byte {at} is cut: it is left out")
            return
        if found == 0:
            yield at, ahead[len(mark):]
            at, ahead = at + size, b""


@dataclass
class Packets:
    """Packets as they come out of the data of frames. What is gathered of a packet that isn't whole yet is kept."""

    tell: Tell
    sums: Counter[str]
    has_control: bool
    gathered: bytes = b""
    latest: Optional[Frame] = None

    def drop(self, why: str) -> None:
        """Gives up the packet that isn't whole."""
        cut = f", which cuts a packet of which {len(self.gathered)} bytes came: it is left out" if self.gathered else ""
        self.sums["cut"] += bool(self.gathered)
        self.gathered = b""
        self.tell(why + cut)

    def missing(self, frame: Frame) -> bool:
        """Whether a frame is to be taken; tells what is missing before it."""
        if self.latest is None:
            return True
        missing = (frame.number - self.latest.number - 1) % 256
        if missing == 255 and frame.whole == self.latest.whole:
            self.sums["repeated"] += 1
            return False
        if missing == 255 and not self.has_control:
            self.sums["bad"] += 1
            self.drop(f"the frame at byte {frame.place} has the number of the one before and other bytes: it counts as missing")
            return False
        if missing:
            self.sums["missing"] += missing
            self.drop(f"{missing} frames are missing before the frame at byte {frame.place}")
        return True

    def take(self, frame: Frame) -> Iterator[bytes]:
        """The packets that are whole with this frame."""
        if not self.missing(frame):
            return
        self.latest = frame
        if frame.first == IDLE_DATA:
            self.sums["idle"] += 1
            if self.gathered:
                self.drop(f"the frame at byte {frame.place} has idle data alone")
            return
        begun = len(frame.data) if frame.first == NO_PACKET else frame.first
        if self.gathered:
            yield from self.going_on(frame, begun)
        if frame.first != NO_PACKET:
            self.gathered = frame.data[begun:]
            yield from self.whole_ones(frame)

    def going_on(self, frame: Frame, begun: int) -> Iterator[bytes]:
        """The packet that the frame goes on with, if it ends just where the next one begins."""
        self.gathered += frame.data[:begun]
        packets = list(self.whole_ones(frame))
        if len(packets) > 1 or (self.gathered and frame.first != NO_PACKET):
            packets.clear()
            self.drop(f"the frame at byte {frame.place} begins a packet where its length doesn't end the one before")
        yield from packets

    def whole_ones(self, frame: Frame) -> Iterator[bytes]:
        """The whole packets that are gathered; what is left is the front of one."""
        while len(self.gathered) >= 6:
            if self.gathered[0] >> 5:
                self.drop(f"in the frame at byte {frame.place} begins something else than a Space Packet")
                return
            size = 7 + int.from_bytes(self.gathered[4:6], "big")
            if len(self.gathered) < size:
                return
            packet, self.gathered = self.gathered[:size], self.gathered[size:]
            if int.from_bytes(packet[:2], "big") & 0x7FF != IDLE:
                yield packet


class Run:
    """The frames of a run: those of one spacecraft and one virtual channel are taken, all are counted. What is told waits until most are good,
    so that a wrong length isn't told frame by frame."""

    def __init__(self, said: Dict[str, Optional[int]], tell: Tell) -> None:
        self.said, self.scid, self.vcid = said, said["scid"], said["vcid"]
        self.has_control = bool(said["control"])
        self.sums: Counter[str] = Counter()
        self.others: Counter[int] = Counter()
        self.held: List[str] = []
        self.has_others = False
        self.tell_now = tell
        self.taken = Packets(self.tell, self.sums, self.has_control)

    def tell(self, text: str) -> None:
        """Tells a line once most frames are good."""
        if self.sums["read"] >= FEW and not self.is_poor():
            self.tell_all()
            self.tell_now(text)
        elif len(self.held) < LINES:
            self.held.append(text)
        else:
            self.sums["untold"] += 1

    def tell_all(self) -> None:
        """Tells the lines that wait."""
        for line in self.held:
            self.tell_now(line)
        self.held.clear()
        if self.sums["untold"]:
            self.tell_now(f"{self.sums.pop('untold')} lines more, of the next frames, are left out")

    def is_poor(self) -> bool:
        """Whether no frame was taken, or more than half are bad."""
        strangers = (self.sums["spacecraft"] if self.said["scid"] is None else 0) + (sum(self.others.values()) if self.said["vcid"] is None else 0)
        return not self.sums["taken"] or 2 * (self.sums["bad"] + self.sums["stray"] + strangers) > self.sums["read"]

    def frame(self, place: int, whole: bytes) -> Optional[Frame]:
        """A frame, if it is of the spacecraft and the channel."""
        self.sums["read"] += 1
        # (the remainder by x^16 + x^12 + x^5 + 1, begun with ones)
        if self.has_control and binascii.crc_hqx(whole, 0xFFFF):
            raise Bad("is damaged, by its error control")
        identifier = int.from_bytes(whole[:2], "big")
        if identifier >> 14:
            raise Bad("is of another version")
        scid, vcid = identifier >> 4 & 0x3FF, identifier >> 1 & 7
        self.scid = scid if self.scid is None else self.scid
        if scid != self.scid:
            self.sums["spacecraft"] += 1
            return None
        self.vcid = vcid if self.vcid is None else self.vcid
        if vcid != self.vcid:
            self.others[vcid] += 1
            self.has_others = self.has_others or int.from_bytes(whole[4:6], "big") & 0x7FF != IDLE_DATA
            return None
        return frame_of(place, whole, self.has_control)

    def packets(self, source: BinaryIO) -> Iterator[bytes]:
        """The Space Packets of frames, in order."""
        for place, whole in framed(source, self.said["length"] or 0, MARK if self.said["sync"] else b"", self.tell, self.sums):
            try:
                frame = self.frame(place, whole)
            except Bad as why:
                self.sums["bad"] += 1
                self.tell(f"the frame at byte {place} {why}: it counts as missing")
                continue
            if frame is not None:
                self.sums["taken"] += 1
                for packet in self.taken.take(frame):
                    self.sums["packets"] += 1
                    yield packet
        if self.taken.gathered:
            self.taken.drop("the frames end")

    def end(self) -> int:
        """Tells the sums, or refuses a run of too few good frames, and gives the status."""
        sums = self.sums
        others = "".join(f", {count} of virtual channel {vcid}" for vcid, count in sorted(self.others.items()))
        stray = f", {sums['stray']} times with other bytes between" if sums["stray"] else ""
        read_ones = f"{sums['read']} frames were read{stray}, {sums['bad']} of them bad, {sums['spacecraft']} of other spacecraft{others}"
        if self.is_poor():
            raise ToolError(f"{read_ones}, and {sums['taken']} were taken: length=, sync=, control=, scid= or vcid= may be wrong", POOR)
        self.tell(f"{read_ones}, {sums['taken']} of virtual channel {self.vcid} of spacecraft {self.scid}")
        self.tell(f"virtual channel {self.vcid}: {sums['missing']} frames missing, {sums['repeated']} repeated, {sums['idle']} idle; {sums['packets']} packets, and {sums['cut']} that were cut")
        is_doubtful = self.said["vcid"] is None and self.has_others
        if is_doubtful:
            self.tell("another virtual channel has packets, which are not taken: say vcid=")
        self.tell_all()
        return LOOK if is_doubtful else 0


def run(words: List[str]) -> int:
    """Writes the store of the frames of standard input."""
    said = given(words, [*KEYS, "out", "report"], ["length"])
    numbers = {key: number_of(said, key, *bounds) for key, bounds in KEYS.items()}
    with outputs("frames", said, ["-"]) as (out, tell), opened("-") as source:
        taken = Run(numbers, tell)
        for packet in taken.packets(source):
            out.write(packet)
        return taken.end()
