"""Records of two or three stations, joined by `python3 -m pocket merge`: random deliveries of streams that count, repeat or stay the same,
with gaps of any length and beginnings that are said right, nearly right and wrong. What is right is reckoned here from what was sent and
what arrived. Also each refusal, the order among APIDs, and the memory."""

import itertools
import os
import pathlib
import random
import subprocess
import sys
import tempfile

from library import LibraryTest
from packets import PERIOD, packet
from pocket import merge
from pocket.tool import ToolError
from program import Folder

HALF, CASES = PERIOD // 2, 300


def data_of(kind, number):
    """The data of a packet of a stream: each its own, those of an 8-bit counter, of a longer period, or always the same; for a while the same; or
    every other one the same."""
    return {"own": number.to_bytes(4, "big"), "counter": bytes([number % 256]), "period": (number % PERIOD).to_bytes(2, "big"), "constant": b"\x44\xc0",
            "quiet": (number // 97).to_bytes(3, "big"), "half": bytes([number % 2 and number // PERIOD])}[kind]


def delivery(draw, first, packets, widest):
    """The numbers that arrive of a stream from one on: some are lost, some in rows up to the widest, and some come twice."""
    numbers, at = [], first
    for _ in range(packets):
        numbers += [at] * (2 if draw.random() < 0.03 else 1)
        at += 1 + (draw.choice([1, 2, 7, draw.randrange(1, widest)]) if draw.random() < 0.1 else 0)
    return numbers


class Refused(Exception):
    """What the test expects to be refused."""


def reckoned(numbers, first):
    """The numbers of packets as a record tells them: each the least greater one with its count."""
    found = [first]
    for before, after in zip(numbers, numbers[1:]):
        if (after - before) % PERIOD >= HALF:
            raise Refused("in order")
        found.append(found[-1] + (after - before) % PERIOD)
    return found


def placed(draw, first, base, error):
    """A word near= that is wrong by so many, and the number that it gives to the first packet."""
    near = max(first - base + error, 0)
    wrong = near - (first - base)
    return near, first - base + (wrong + HALF) // PERIOD * PERIOD if wrong % PERIOD != HALF else None


class Case:
    """A pass of one to three APIDs over two or three stations: the records, the words, and what comes out."""

    def __init__(self, draw):
        self.draw, self.stations = draw, draw.choice([2, 2, 3])
        self.apids = {100 + k: draw.choice(["own", "counter", "period", "constant", "quiet", "half"]) for k in range(draw.randrange(1, 4))}
        self.is_short = draw.random() < 0.15
        self.arrived, self.near, self.union = {}, {}, {}
        self.refused, self.is_true = set(), True
        for apid in self.apids:
            self.arrive(apid)

    def arrive(self, apid):
        """What arrives of an APID at each station, and which numbers the words give to it."""
        draw, base = self.draw, None
        at = draw.randrange(0, 40000)
        for station in range(self.stations):
            if draw.random() < 0.15 and (station or apid > 100):
                continue
            far = [draw.randrange(-9000, 9000)] if self.is_short else [draw.randrange(-20000, 40000), PERIOD + draw.randrange(-60, 60)]
            first = max(at + draw.choice([0, draw.randrange(-60, 60), draw.randrange(-300, 300), *far]), 0)
            numbers = delivery(draw, first, draw.randrange(1, 80), draw.choice([60, 60, 3000] if self.is_short else [60, 600, 8191, 8191, 40000]))
            self.arrived[station, apid] = numbers
            if base is None:
                base, start = first - first % PERIOD, first % PERIOD
            elif self.is_short:
                low = min(self.union.get(apid, [0]))
                start = min((first % PERIOD + turn * PERIOD for turn in range(-1, 4)), key=lambda one: abs(one - low))
                start = None if abs(start - low) == HALF else start
            else:
                error = draw.choice([0, draw.randrange(-8191, 8192), draw.randrange(-8191, 8192), draw.choice([-8191, 8191]), draw.choice([-8192, 8192, 8193, 16384, -16384, 30000])])
                self.near[station, apid], start = placed(draw, first, base, error)
            self.number(station, apid, start, base)

    def number(self, station, apid, start, base):
        """Numbers what arrived of an APID at a station."""
        try:
            own_numbers = reckoned(self.arrived[station, apid], start or 0)
            if start is None:
                raise Refused("on either side")
            for number, own in zip(self.arrived[station, apid], own_numbers):
                self.is_true = self.is_true and own == number - base
                self.union.setdefault(apid, {}).setdefault(own, {}).setdefault(data_of(self.apids[apid], number), set()).add(station)
        except Refused as why:
            self.refused.add(str(why))

    def records(self, folder):
        """The records in files, their packets in an order that all have, or each in an order of its own; and the words."""
        draw, is_common, words, self.orders = self.draw, self.draw.random() < 0.6, [], []
        self.is_common = is_common
        speeds = {apid: draw.choice([0.5, 1, 3]) for apid in self.apids}
        for station in range(self.stations):
            own = {apid: [(number, packet(apid, number, data_of(kind, number))) for number in self.arrived.get((station, apid), [])] for apid, kind in self.apids.items()}
            timed = [(number * speeds[apid] if is_common else 0, apid, number, whole) for apid, packets in own.items() for number, whole in packets]
            order = [(apid, whole) for _, apid, _, whole in sorted(timed)] if is_common else woven(draw, own)
            self.orders.append(order)
            path = os.path.join(folder, f"station{station}")
            pathlib.Path(path).write_bytes(b"".join(whole for _, whole in order))
            words += [path, *(f"near={apid}:{self.near[station, apid]}" for apid in self.apids if (station, apid) in self.near)]
        return words + ["span=short"] * self.is_short

    def wanted(self):
        """The packets of each APID in order, or why they are refused, and the rows of losses that can't be seen."""
        if self.is_short and any(max(numbers) - min(numbers) + 1 >= HALF for numbers in self.union.values()):
            self.refused.add("lie within")
        if any(len(own) > 1 for numbers in self.union.values() for own in numbers.values()):
            self.refused.add("have other data")
        if self.refused:
            raise Refused(*sorted(self.refused))
        found = {apid: [packet(apid, number, *own) for number, own in sorted(numbers.items())] for apid, numbers in self.union.items()}
        gaps = [(apid, place, before, after) for apid, numbers in self.union.items() for place, (before, after) in enumerate(zip(sorted(numbers), sorted(numbers)[1:]), 1) if after - before > HALF]
        return found, gaps

    def elsewhere(self):
        """The APIDs and stations of which most packets, and three or more, are equal to those of their counts before in another record."""
        found = {}
        for apid, numbers in self.union.items():
            latest = {}
            for number, own in sorted(numbers.items()):
                (data, holders), count = *own.items(), number % PERIOD
                for other in range(self.stations):
                    for holder in holders - {other}:
                        if (other, count) in latest:
                            found.setdefault((apid, *sorted((holder, other))), []).append(latest[other, count] == data)
                latest.update({(holder, count): data for holder in holders})
        return {key for key, equal in found.items() if sum(equal) >= 3 and 2 * sum(equal) > len(equal)}


def woven(draw, streams):
    """Packets of several APIDs, each in its own order."""
    streams, found = {apid: list(reversed(packets)) for apid, packets in streams.items() if packets}, []
    while streams:
        apid = draw.choice(list(streams))
        found.append((apid, streams[apid].pop()[1]))
        streams = {apid: packets for apid, packets in streams.items() if packets}
    return found


def joined(words):
    """What comes out, packet by packet, what is told, and the status; or the refusal."""
    told, found = [], []
    try:
        records, said = merge.records_of(words)
        status = merge.joined(records, "span" in said, found.append, told.append)
    except ToolError as refusal:
        return str(refusal)
    return found, told, status


def begins(packets, apid):
    """The bytes of a store at which the packets of an APID begin."""
    places = itertools.accumulate(map(len, packets), initial=0)
    return [place for place, whole in zip(places, packets) if int.from_bytes(whole[:2], "big") == apid]


def once(packets):
    """Packets without those that come again at once, each of its APID."""
    latest, found = {}, []
    for apid, whole in packets:
        if latest.get(apid) != whole:
            found.append(whole)
        latest[apid] = whole
    return found


def is_within(packets, others):
    """Whether packets stand among others in their order."""
    rest = iter(others)
    return all(packet in rest for packet in packets)


# What is refused: the words, and what is told, if it is one text.
REFUSALS = [
    ("a cut", "cut: the packet at byte 0 is cut"), ("a none", "none: the packet at byte 0 is cut"), ("a odd", "odd: at byte 8 begins no Space Packet"), ("a two near=1", "two has packets of 2 APIDs: say near=APID:N"),
    ("a back", "back: from the packet of APID 100 at byte 0 to the one at byte 8 the count goes from 5 to 4: it isn't in order there, it began anew, or too many are lost"),
    ("a hurt near=40", "the packets of APID 100 and count 45 at byte 360 of a and at byte 40 of hurt are one by their number and have other data: near= is wrong, or one of them is damaged"),
    ("a twice near=0", "the packets of APID 100 and count 0 at byte 0 of twice and at byte 8 of twice are one by their number and have other data: one of them is damaged, or 16,383 are lost between them"),
    ("a short span=short", "short: the packets of APID 100 lie within 8300 numbers, and not within fewer than 8,192: say near="),
    ("a far near=0", "far: its first packet of APID 100 has the count 8192, which 0 is 8,192 from on either side"),
    ("a b near=101:1", "b has no packet of APID 101, which near= names"), ("a b span=long", "span= takes short, in place of near="),
    ("a b near=3 span=short", "span= takes short, in place of near="), ("a", "merge takes two records or more"),
    ("a near=3 b", "near=3 follows the record that it is said of, which isn't the first one"), ("- -", None),
    ("a b near=x", "near=x: near= takes N or APID:N, a number below 4294967296 and an APID below 2047"),
    ("a b near=2047:1", "near=2047:1: near= takes N or APID:N, a number below 4294967296 and an APID below 2047"), ("a b near=1 near=2", "near=2 is said twice of b"),
    ("a gone", "gone: No such file or directory"), ("a two near=100:0 near=101:0", "two: near= is said of the first record that has APID 101, which gives its numbers"),
]


class Files(Folder):
    """Records in a folder, by letters, and what comes of them."""

    def put_all(self, **records):
        for name, packets in records.items():
            self.put(name, packets if isinstance(packets, bytes) else b"".join(packets))

    def joined(self, words):
        found = joined([word if "=" in word else self.at(word) for word in words.split()])
        return found.replace(self.folder + os.sep, "") if isinstance(found, str) else found


class Merge(LibraryTest):
    def setUp(self):
        self.files = Files(self.enterContext(tempfile.TemporaryDirectory(prefix="pocket-merge-")))

    def test_deliveries(self):
        """Random cases."""
        self.sums = {}
        for turn in range(CASES):
            one = Case(random.Random(turn))
            found = joined(one.records(self.files.folder))
            with self.subTest(turn):
                self.judge_case(one, found)
        self.assertGreater(self.sums["joined"], CASES // 4)

    def judge_case(self, one, found):
        try:
            wanted, gaps = one.wanted()
        except Refused as why:
            self.assertTrue(isinstance(found, str) and any(cause in found for cause in why.args), (found, why))
            return
        self.assertNotIsInstance(found, str, found)
        self.sums["joined"] = self.sums.get("joined", 0) + 1
        packets, told, status = found
        by_apid = {apid: [whole for whole in packets if int.from_bytes(whole[:2], "big") == apid] for apid in wanted}
        self.assertEqual((by_apid, len(packets)), (wanted, sum(map(len, wanted.values()))))
        rows = [f"APID {apid}: between the packets {before} and {after}, at byte {begins(packets, apid)[place]} of the store, {after - before - 1} are "
                f"missing, more than {'restore and late can see: cut the store there, and take the parts one by one' if after - before >= PERIOD else 'late can see: take restore'}"
                for apid, place, before, after in gaps]
        self.assertEqual((status, sorted(line for line in told if "are missing" in line)), (3 if gaps else 0, sorted(rows)))
        self.assertEqual({(line.split()[5], line.split()[7][-1], line.split()[0][-2]) for line in told if "another place" in line},
                         {tuple(map(str, key)) for key in one.elsewhere()})
        if one.is_common and one.is_true:
            self.assertTrue(all(is_within(once(order), packets) for order in one.orders), "another order")

    def test_repeating(self):
        """Data that fit anywhere: a stream and a later part of it, which have nothing in common, and one that goes over a period."""
        for kind in ("constant", "counter", "period"):
            # (of two kinds one packet in 64 arrives)
            sent = {number: packet(100, number, data_of(kind, number)) for number in range(25384) if kind == "counter" or number % 64 == 16 or number == 9999}
            cut = lambda first, last: [whole for number, whole in sent.items() if first <= number < last]
            self.files.put_all(a=cut(0, 10000), b=cut(18384, 25384))
            wanted = "b: APID 100 is in a too: say near=100:N after b, where N is to within 8,191 the number of its first packet as a counts, or span=short if all lie within fewer than 8,192"
            self.assertEqual(self.files.joined("a b"), wanted, kind)
            for near in (18384, 18384 - 8191, 18384 + 8191) if kind != "counter" else (18000,):
                with self.subTest(kind, near=near):
                    packets, told, status = self.files.joined(f"a b near={near}")
                    row = f"APID 100: between the packets 9999 and 18384, at byte {len(b''.join(cut(0, 10000)))} of the store, 8384 are missing, more than late can see: take restore"
                    self.assertEqual((packets, told[0], status, len(told)), (cut(0, 10000) + cut(18384, 25384), row, 3, 2))
                    self.assertIn("another place", told[1])
            self.files.put_all(a=cut(0, 20000), b=cut(15000, 25384))
            self.assertEqual(self.files.joined("a b near=15003")[0], cut(0, 25384), kind)

    def test_itself(self):
        """A record joined with itself is itself, byte for byte, whatever the order of its APIDs is."""
        record = [whole for _, whole in woven(random.Random(20261201), {apid: [(number, packet(apid, number, data_of("own", number))) for number in range(apid * 9, apid * 9 + 700)] for apid in range(3)})]
        self.files.put_all(a=record)
        self.assertEqual(self.files.joined("a a near=0:0 near=1:9 near=2:18")[0], record)
        self.assertEqual(self.files.joined("a a a span=short")[0], record)

    def test_bounds(self):
        """What is just seen and just not, by restore and by late; within a record; and with span=short."""
        one = lambda *numbers: [packet(100, number, data_of("own", number)) for number in numbers]
        for lost, wanted, status in ((8191, "", 0), (8192, "late can see: take restore", 3), (16382, "late can see: take restore", 3), (16383, "restore and late can see: cut", 3)):
            self.files.put_all(a=one(5), b=one(6 + lost))
            packets, told, ended = self.files.joined(f"a b near={6 + lost}")
            self.assertEqual((packets, ended, len(told)), (one(5, 6 + lost), status, 1 if wanted else 0), lost)
            self.assertTrue(all(f" {lost} are missing, more than {wanted}" in line for line in told), told)
        for step, is_joined in ((8191, True), (8192, False), (16383, False)):
            self.files.put_all(a=one(5, 5 + step), b=one(5))
            self.assertEqual(self.files.joined("a b near=5")[0] == one(5, 5 + step), is_joined, step)
        for last, is_joined in ((8190, True), (8191, False)):
            self.files.put_all(a=one(0, last), b=one(7))
            found = self.files.joined("a b span=short")
            self.assertTrue(found == (one(0, 7, last), [], 0) if is_joined else f"lie within {last + 1} numbers" in found, found)
        for near, is_joined in ((8191 + 6, True), (8192 + 6, False)):
            self.files.put_all(a=one(5), b=one(6))
            self.assertEqual(self.files.joined(f"a b near={near}")[0] == one(5, 6), is_joined, near)

    def test_refusals(self):
        """Each refusal, with its places."""
        sent = [packet(100, number, bytes([number % 251, number % 13])) for number in range(20000)]
        self.files.put_all(a=sent[:50], b=sent[40:60], cut=sent[0][:-1], none=b"\xff" * 7, odd=sent[0] + b"\x20" + sent[1][1:], back=sent[5] + sent[4], short=sent[8000:8300], twice=sent[0] + sent[0][:-1] + b"\xff",
                           hurt=sent[40:45] + [sent[45][:-1] + b"\xff"] + sent[46:60], two=sent[0] + packet(101, 0, b"\0"), far=sent[8192:8195], idle=[packet(2047, 5, b"\0\0"), *sent[:50]])
        for words, wanted in REFUSALS:
            with self.subTest(words):
                found = self.files.joined(words)
                self.assertEqual(found, wanted or found)
                self.assertIsInstance(found, str)
        self.assertEqual(self.files.joined("idle a near=0"), (sent[:50], [], 0), "idle packets are left out")
        for common in (0, 1000, 8000, 8300, 16384, 16390, 19000):
            first, second = [number for number in range(19500) if number % 7 == 3], [number for number in range(19500 - common, 20000) if number % 5 == 0]
            self.files.put_all(a=[sent[number] for number in first], b=[sent[number] for number in second])
            self.assertEqual(self.files.joined(f"a b near={19510 - common}")[0], [sent[number] for number in sorted({*first, *second})], common)

    def test_changed(self):
        """A record that changes while it is joined: what is added isn't read, and where a packet is gone or has become another APID's, that is told."""
        sent = [packet(100, number, number.to_bytes(4, "big")) for number in range(15000)]
        own = {"a": sent[:10000], "b": sent[5000:]}
        second = b"".join(own["b"])
        self.assertEqual(self.changed(own, "b", second + sent[0]), (sent, 0))
        self.assertEqual(self.changed(own, "b", second[:-5])[1], f"b: the packet at byte {len(second) - 10} is cut")
        for name, packets in own.items():
            for apid in (101, 2047):
                _, told = self.changed(own, name, b"".join(packet(apid, 0, whole[6:]) for whole in packets))
                self.assertEqual(told, f"{name} was changed while it was read", apid)

    def test_changed_anyhow(self):
        """However a record changes while it is joined, it is joined as it was, or that is refused."""
        draw = random.Random(20261202)
        for turn in range(60):
            streams = {apid: [(number, packet(apid, number, number.to_bytes(4, "big"))) for number in range(1500)] for apid in (100, 101)}
            own = {name: [whole for _, whole in woven(draw, {apid: rows[first:last] for apid, rows in streams.items()})] for name, first, last in (("a", 0, 1000), ("b", 500, 1500))}
            name = draw.choice("ab")
            packets = own[name][:]
            if draw.random() < 0.3:
                draw.shuffle(packets)
            first, last = sorted(draw.randrange(len(packets)) for _ in range(2))
            put = draw.choice([lambda whole: b"", lambda whole: packet(2047, 0, whole[6:]), lambda whole: packet(draw.choice([100, 101, 102]), draw.randrange(1500), whole[6:]), lambda whole: draw.randbytes(10)])
            with self.subTest(turn):
                found, told = self.changed(own, name, b"".join([*packets[:first], *map(put, packets[first:last]), *packets[last:]]), "near=100:500 near=101:500")
                self.assertTrue(isinstance(told, str) or sorted(found) == sorted(whole for rows in streams.values() for _, whole in rows), told)

    def changed(self, own, name, changed, near="near=5000"):
        """What is joined of two records of which one has another content after the first packet, and the status or the refusal."""
        self.files.put_all(**own)
        records, _ = merge.records_of([self.files.at("a"), self.files.at("b"), *near.split()])
        found = []

        def write(whole):
            found.append(whole)
            if len(found) == 1:
                self.files.put(name, changed)

        try:
            return found, merge.joined(records, False, write, lambda text: None)
        except ToolError as refusal:
            return found, str(refusal).replace(self.files.folder + os.sep, "")

    def test_folder(self):
        """The folder in which a pipe is kept is gone after all is joined, and after a refusal."""
        one = packet(100, 0, b"\0")
        for second, status in ((one, 0), (one[:-1], 1)):
            own = self.enterContext(tempfile.TemporaryDirectory(prefix="pocket-merge-"))
            self.files.put_all(a=one)
            ran = subprocess.run([sys.executable, "-m", "pocket", "merge", self.files.at("a"), "-", "near=0"], input=second, capture_output=True, env={**os.environ, "TMPDIR": own})
            self.assertEqual((ran.returncode, ran.stdout, os.listdir(own)), (status, one if status == 0 else b"", []), ran.stderr)

    def test_memory(self):
        """Two records of 15,000 packets of 128 bytes, of which one is a pipe and an APID is in one alone, are joined within 30 MB."""
        at = self.files.at
        with open(at("a"), "wb") as a, open(at("b"), "wb") as b:
            for number in range(15_000):
                for apid in (100, 101, 102)[:2 + (number % 4 == 0)]:
                    whole = packet(apid, number if apid < 102 else number // 4, number.to_bytes(122, "big"))
                    a.write(whole if apid < 102 else b"")
                    b.write(whole)
        code = ("import sys; from pocket import merge; merge.run(sys.argv[1:]); "
                "print(next(line.split()[1] for line in open('/proc/self/status') if line.startswith('VmHWM')), file=sys.stderr)")
        with open(at("b"), "rb") as b, subprocess.Popen(["cat"], stdin=b, stdout=subprocess.PIPE) as pipe:
            ran = subprocess.run([sys.executable, "-c", code, at("a"), "-", "near=100:5", "near=101:9", "out=" + at("out")], stdin=pipe.stdout, capture_output=True)
        self.assertEqual(self.files.get("out"), self.files.get("b"), ran.stderr[-200:])
        self.assertLess(int(ran.stderr), 30_000)
