HELP = """python3 -m pocket merge FIRST SECOND near=.. ..: joins the records of one pass by several stations into one store, in order.

    python3 -m pocket merge first.store second.store near=16500 out=both.store
    python3 -m pocket merge first.store second.store near=100:16500 near=101:9000 dump.store near=100:0 > all.store
    python3 -m pocket merge first.store second.store span=short > both.store

A record is Space Packets of one or more APIDs, each APID in order of its packets, with losses and repeats; `-` is standard input. Each
packet of any record is in the store once, each APID in order, and APIDs among each other as the records have them, the first one before
the others. Idle packets are left out.

Of each APID the first record that has it gives the numbers: its first packet has its sequence count as its number, as for `restore`, each
further one the least greater number with its count. Sequence counts tell a number up to a multiple of 16,384, and data don't tell it
either, since they may repeat. So where a record begins has to be said after its name, for each APID that a record before it has:

    near=N, near=APID:N  its first packet has the number nearest to N with its count, so N has to be right to within 8,191: from the time
                         at which the record begins and the rate of packets, or from what `restore` tells of the first record
    span=short           in place of all near=: the packets of each APID lie within fewer than 8,192 numbers, so that counts tell them

Refused, with the bytes at which the packets stand, are two packets of one number with other data (near= is wrong, or one is damaged),
with span=short a number outside, and a step of 8,192 or more from one packet of a record to the next (it isn't in order, a count began
anew, or too many are lost): cut the record there, into two. Told, on standard error or in the file report=, is that a record would fit at
another place too, by packets that are equal there; and each joined loss that `restore` can't see (16,383 packets and more) or `late`
(8,192 and more): then the store is written, and the status is 3. Pipes are kept in a temporary file. What this command decides is tested,
not proved.
"""

import os
import stat
import tempfile
import zlib
from array import array
from collections import defaultdict, deque
from dataclasses import dataclass, field
from typing import BinaryIO, Callable, Deque, Dict, Iterator, List, NamedTuple, Optional, Tuple

from .packets import HEADER, IDLE, PERIOD
from .tool import LOOK, Tell, ToolError, given, opened, outputs, read, whole_number

HALF = PERIOD // 2
# The bits of a place in a record.
PLACE = 48
# So many packets in a row or more, if they are lost, `restore` can't see, and `late`.
UNSEEN, TOO_LATE = PERIOD - 1, HALF
# So many packets or more have to be equal at another place, and more than differ there, for it to be told.
MANY = 3


class Packet(NamedTuple):
    """A Space Packet of a record: its number, and the byte at which it begins."""

    apid: int
    number: int
    place: int
    whole: bytes


def packets_of(name: str, source: BinaryIO, at: int, end: int) -> Iterator[Tuple[int, int, int, bytes]]:
    """The Space Packets of a record from a byte up to another one, without the idle ones: APID, sequence count, byte and the whole packet."""
    source.seek(at)
    while at < end:
        header = read(source, 6)
        first, second, last = HEADER.unpack(header.ljust(6))
        whole = header + read(source, last + 1)
        if len(whole) < 7 + last or at + len(whole) > end:
            raise ToolError(f"{name}: the packet at byte {at} is cut")
        if first >> 13:
            raise ToolError(f"{name}: at byte {at} begins no Space Packet")
        if first & 0x7FF != IDLE:
            yield first & 0x7FF, second & 0x3FFF, at, whole
        at += len(whole)


@dataclass
class Stream:
    """What is known of an APID of a record before it is joined: its first number, its last one, and how many packets it has, each once."""

    first: int
    last: int = 0
    packets: int = 0


@dataclass
class Record:
    """A record that the words name, and near which number of each APID, or of its only one, it begins."""

    name: str
    near: Dict[Optional[int], int] = field(default_factory=dict)
    path: str = ""
    size: int = 0
    streams: Dict[int, Stream] = field(default_factory=dict)

    def begins(self, told: str) -> None:
        """Takes what a word `near=` says."""
        apid, colon, text = told.rpartition(":")
        number, own = whole_number(text, 0, 2**32 - 1), whole_number(apid, 0, IDLE - 1)
        if number is None or (colon and own is None):
            raise ToolError(f"near={told}: near= takes N or APID:N, a number below 4294967296 and an APID below 2047")
        if own in self.near:
            raise ToolError(f"near={told} is said twice of {self.name}")
        self.near[own] = number

    def look(self, folder: str) -> None:
        """Reads the record for what is known of its APIDs. What is no regular file is kept in one first."""
        with opened(self.name) as source:
            self.path, is_file = self.name, stat.S_ISREG(os.fstat(source.fileno()).st_mode)
            if not is_file or self.name == "-":
                with tempfile.NamedTemporaryFile(dir=folder, delete=False) as kept:
                    while part := read(source, 1 << 20):
                        kept.write(part)
                    self.path = kept.name
        self.size = os.path.getsize(self.path)
        for packet in self.packets():
            stream = self.streams.setdefault(packet.apid, Stream(packet.number))
            stream.last, stream.packets = packet.number, stream.packets + 1
        if strange := [apid for apid in self.near if apid is not None and apid not in self.streams]:
            raise ToolError(f"{self.name} has no packet of APID {strange[0]}, which near= names")
        if None in self.near and len(self.streams) > 1:
            raise ToolError(f"{self.name} has packets of {len(self.streams)} APIDs: say near=APID:N")

    def packets(self) -> Iterator[Packet]:
        """The packets of the record, each once, with their numbers: an APID begins with that of its stream, or else with its count."""
        latest: Dict[int, Packet] = {}
        with opened(self.path) as source:
            for apid, count, at, whole in packets_of(self.name, source, 0, self.size):
                before = latest.get(apid)
                if before:
                    number = before.number + (count - before.number) % PERIOD
                else:
                    number = self.streams[apid].first if apid in self.streams else count
                packet = Packet(apid, number, at, whole)
                if before is None or before.number < number < before.number + HALF:
                    latest[apid] = packet
                    yield packet
                else:
                    self.look_at(before, packet)

    def look_at(self, before: Packet, packet: Packet) -> None:
        """Refuses a packet that is not a later one of its APID, if it isn't the one before again."""
        if packet.number != before.number:
            raise ToolError(f"{self.name}: from the packet of APID {packet.apid} at byte {before.place} to the one at byte {packet.place} the count goes from "
                            f"{before.number % PERIOD} to {packet.number % PERIOD}: it isn't in order there, it began anew, or too many are lost")
        if packet.whole != before.whole:
            raise ToolError(differ(self.name, before, self.name, packet, "one of them is damaged, or 16,383 are lost between them"))


def differ(first: str, one: Packet, second: str, other: Packet, why: str) -> str:
    """That two packets that seem to be one have other data."""
    return (f"the packets of APID {one.apid} and count {one.number % PERIOD} at byte {one.place} of {first} and at byte {other.place} of {second} "
            f"are one by their number and have other data: {why}")


def nearest(number: int, count: int) -> Optional[int]:
    """The number nearest to another one with a sequence count, if there is one."""
    step = (count - number) % PERIOD
    return None if step == HALF else number + (step if step < HALF else step - PERIOD)


def place(records: List[Record], is_short: bool) -> None:
    """Gives each APID of each record the number with which it begins."""
    known: Dict[int, Tuple[str, int, int]] = {}
    for record in records:
        for apid, stream in record.streams.items():
            name, low, high = known.get(apid, (record.name, stream.first, stream.last))
            start = low if is_short else record.near.get(apid if apid in record.near else None)
            if apid not in known and not is_short and start is not None:
                raise ToolError(f"{record.name}: near= is said of the first record that has APID {apid}, which gives its numbers")
            if apid in known:
                if start is None:
                    raise ToolError(f"{record.name}: APID {apid} is in {name} too: say near={apid}:N after {record.name}, where N is to within 8,191 the number "
                                    f"of its first packet as {name} counts, or span=short if all lie within fewer than 8,192")
                first = nearest(start, stream.first)
                if first is None:
                    raise ToolError(f"{record.name}: its first packet of APID {apid} has the count {stream.first % PERIOD}, which {start} is 8,192 from on either side")
                stream.first, stream.last = first, stream.last + first - stream.first
            low, high = min(low, stream.first), max(high, stream.last)
            if is_short and high - low + 1 >= HALF:
                raise ToolError(f"{record.name}: the packets of APID {apid} lie within {high - low + 1} numbers, and not within fewer than 8,192: say near=")
            known[apid] = name, low, high


class Source:
    """A record as it is joined: its next packet, and of those after it that were looked for the number, and below that the byte, in one number."""

    def __init__(self, record: Record) -> None:
        self.record = record
        self.front, self.scout = record.packets(), record.packets()
        self.left = {apid: stream.packets for apid, stream in record.streams.items()}
        self.ahead: Dict[int, Deque[int]] = {apid: deque() for apid in record.streams}
        self.head = next(self.front, None)
        self.pass_over({})

    def changed(self) -> ToolError:
        """That the record is another one than was looked at."""
        return ToolError(f"{self.record.name} was changed while it was read")

    def next_number(self, apid: int) -> Optional[int]:
        """The number of its next packet of an APID that is not yet joined, if it has one."""
        ahead = self.ahead[apid]
        while not ahead and self.left[apid]:
            found = next(self.scout, None)
            if found is None or not self.left.get(found.apid):
                raise self.changed()
            self.left[found.apid] -= 1
            self.ahead[found.apid].append(found.number << PLACE | found.place)
        return ahead[0] >> PLACE if ahead else None

    def packet(self, apid: int, number: int) -> Packet:
        """That packet, which may stand behind others."""
        if self.head is not None and self.head[:2] == (apid, number):
            return self.head
        with opened(self.record.path) as source:
            at = self.ahead[apid][0] & (1 << PLACE) - 1
            found = next(packets_of(self.record.name, source, at, self.record.size), None)
            if found is None or found[:3] != (apid, number % PERIOD, at):
                raise self.changed()
            return Packet(apid, number, at, found[3])

    def pass_over(self, done: Dict[int, int]) -> None:
        """Goes on to the next packet that is not yet joined."""
        while self.head is not None and self.head.number <= done.get(self.head.apid, self.head.number - 1):
            self.head = next(self.front, None)
        if self.head is not None and not (self.left.get(self.head.apid) or self.ahead.get(self.head.apid)):
            raise self.changed()

    def end(self) -> None:
        """Refuses a record that has lost packets."""
        if any(self.left.values()) or any(self.ahead.values()):
            raise self.changed()


class Elsewhere:
    """Where else a record would fit: how many packets are equal, and how many differ, to those of one count before them in another one."""

    def __init__(self, holders: Dict[int, List[int]]) -> None:
        # Of each APID that several records have, of each of these: by sequence count the sum of its latest packet, or 0.
        self.sums = {apid: {holder: array("H", bytes(2 * PERIOD)) for holder in own} for apid, own in holders.items() if len(own) > 1}
        self.found: Dict[Tuple[int, int, int], List[int]] = defaultdict(lambda: [0, 0])

    def take(self, packet: Packet, holders: List[int]) -> None:
        """Takes a packet that these records have."""
        count, own = packet.number % PERIOD, zlib.crc32(packet.whole) % 0xFFFF + 1
        latest = self.sums[packet.apid]
        for other, sums in latest.items():
            if sums[count]:
                for holder in holders:
                    if holder != other:
                        self.found[packet.apid, min(holder, other), max(holder, other)][sums[count] == own] += 1
        for holder in holders:
            latest[holder][count] = own

    def tell(self, names: List[str], tell: Tell) -> None:
        """Tells of each two records whether they fit elsewhere."""
        for (apid, first, second), (other, equal) in sorted(self.found.items()):
            if equal >= MANY and equal > other:
                tell(f"{names[second]}: its packets of APID {apid} fit {names[first]} at another place too, 16,384 numbers or a multiple of it away: "
                     f"of {equal + other} of them {equal} are equal there; near= alone decides")


class Joining:
    """The records as they are joined: each packet once, those of an APID in order."""

    def __init__(self, records: List[Record], tell: Tell) -> None:
        self.sources = [Source(record) for record in records]
        self.holders = {apid: [place for place, record in enumerate(records) if apid in record.streams] for record in records for apid in record.streams}
        self.done: Dict[int, int] = {}
        self.elsewhere = Elsewhere(self.holders)
        self.tell = tell
        self.is_seen = True
        self.written = 0

    def ready(self) -> Optional[Tuple[int, int, List[int]]]:
        """The first packet at the front of a record that no other one has behind its front, nor one before it, and the records that have it."""
        for own in self.sources:
            if own.head is None:
                continue
            apid, number, holders = own.head.apid, own.head.number, []
            for holder in self.holders[apid]:
                source = self.sources[holder]
                following = source.next_number(apid)
                if following is None or following > number:
                    continue
                if following < number or source.head is None or source.head[:2] != (apid, number):
                    break
                holders.append(holder)
            else:
                return apid, number, holders
        return None

    def forced(self) -> Optional[Tuple[int, int, List[int]]]:
        """As all fronts wait for each other, since the records contradict each other: the next packet of the first front's APID."""
        apid = next((source.head.apid for source in self.sources if source.head), None)
        if apid is None:
            return None
        numbers = {holder: self.sources[holder].next_number(apid) for holder in self.holders[apid]}
        least = min(number for number in numbers.values() if number is not None)
        return apid, least, [holder for holder, number in numbers.items() if number == least]

    def packets(self) -> Iterator[bytes]:
        """All packets, in order."""
        while found := self.ready() or self.forced():
            packet = self.join(*found)
            yield packet
            self.written += len(packet)
        for source in self.sources:
            source.end()

    def join(self, apid: int, number: int, holders: List[int]) -> bytes:
        """Takes a packet out of the records that have it."""
        found = [self.sources[holder].packet(apid, number) for holder in holders]
        for holder, packet in zip(holders, found):
            if packet.whole != found[0].whole:
                raise ToolError(differ(self.sources[holders[0]].record.name, found[0], self.sources[holder].record.name, packet, "near= is wrong, or one of them is damaged"))
        if apid in self.done:
            self.gap(apid, self.done[apid], number)
        self.done[apid] = number
        if apid in self.elsewhere.sums:
            self.elsewhere.take(found[0], holders)
        for holder in holders:
            self.sources[holder].ahead[apid].popleft()
            self.sources[holder].pass_over(self.done)
        return found[0].whole

    def gap(self, apid: int, before: int, number: int) -> None:
        """Tells a loss that can't be seen by the counts of the store."""
        lost = number - before - 1
        if lost >= TOO_LATE:
            why = "restore and late can see: cut the store there, and take the parts one by one" if lost >= UNSEEN else "late can see: take restore"
            self.tell(f"APID {apid}: between the packets {before} and {number}, at byte {self.written} of the store, {lost} are missing, more than {why}")
            self.is_seen = False


def records_of(words: List[str]) -> Tuple[List[Record], Dict[str, str]]:
    """The records that the words name, and what other words say."""
    records: List[Record] = []
    others = []
    for word in words:
        key, equals, value = word.partition("=")
        if equals and key in ("span", "out", "report"):
            others.append(word)
        elif not equals or key != "near":
            records.append(Record(word))
        elif len(records) < 2:
            raise ToolError(f"{word} follows the record that it is said of, which isn't the first one")
        else:
            records[-1].begins(value)
    said = given(others, ["span", "out", "report"], [])
    if said.get("span", "short") != "short" or ("span" in said and any(record.near for record in records)):
        raise ToolError("span= takes short, in place of near=")
    if len(records) < 2:
        raise ToolError("merge takes two records or more")
    if [record.name for record in records].count("-") > 1:
        raise ToolError("standard input is one record")
    return records, said


def joined(records: List[Record], is_short: bool, write: Callable[[bytes], object], tell: Tell) -> int:
    """Writes the store of records, and gives the status."""
    with tempfile.TemporaryDirectory(prefix="pocket-merge-") as folder:
        for record in records:
            record.look(folder)
        place(records, is_short)
        joining = Joining(records, tell)
        for packet in joining.packets():
            write(packet)
    joining.elsewhere.tell([record.name for record in records], tell)
    return 0 if joining.is_seen else LOOK


def run(words: List[str]) -> int:
    """Writes the store of the records."""
    records, said = records_of(words)
    with outputs("merge", said, [record.name for record in records]) as (out, tell):
        return joined(records, "span" in said, out.write, tell)
