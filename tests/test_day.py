"""An operator's day, over the program: three streams of packets of different lengths come down in transfer frames over two stations,
which lose some and repeat some; the first pass is cut in the midst of a packet, and a third pass has packets that come late. Then come events of
limits and a plot's numbers, and at the end a recorder's dump on a channel of its own and a restart on board. What the commands and the tools
give back is compared with what was sent and what arrived, which is kept here."""

import itertools
import os
import random
import subprocess
import sys
import tempfile
import unittest

from packets import frame_of, laid, moving, packets_of
from program import PROGRAM, TOP, Folder, text_of
from table import table

# The data of a transfer frame, in bytes.
FRAME = 211

# The streams: APID, bits of a packet, packets, required robustness, schedule.
STREAMS = [(100, 64, 900, 2, "0,4294967295,60,p\n200,4294967295,200,fr\n"), (101, 1000, 500, 1, "50,4294967295,50,f\n100,4294967295,100,r\n"),
           (102, 13, 1400, 3, "robust,300,400,1,7\n")]
FIELDS = "field,0,8,u,mode\nfield,8,16,s,current\nfield,24,40,u,clock\nlimit,current,-900,900\n"
# The first station has the first part of the day, and the second begins so many packets of each stream before the cut.
OVERLAP = 40
WINDOW = 64
# The last pass: packets before a restart, of which a dump has the first ones, and packets after it.
BEFORE, DUMPED, AFTER = 12000, 5000, 3000


def housekeeping(draw, bits, count):
    """Contents of which few places move; those of 64 bits have a current."""
    for own in moving(draw, bits, count):
        yield own[:1] + draw.randrange(-1000, 1000).to_bytes(2, "big", signed=True) + own[3:] if bits == 64 else own


def over_a_link(draw, sent, late):
    """What arrives of the packets that are sent, by their numbers: some are lost, alone or in a row, some repeated, and some late."""
    kept, skip = [], 0
    for number in sent:
        skip = max(skip - 1, 0) or (draw.choice([1, 1, 2, 6]) if draw.random() < 0.03 else 0)
        if not skip:
            kept += [number] * (2 if draw.random() < 0.02 else 1)
    if late:
        kept.sort(key=lambda number: number + (draw.choice([3, 5]) if draw.random() < 0.04 else 0))
    return kept


def woven(streams):
    """Packets of all streams in one store, each stream in its own order, in the order of their times."""
    timed = [((place + 1) / len(packets), packet) for packets in streams for place, packet in enumerate(packets)]
    return [packet for _, packet in sorted(timed, key=lambda one: one[0])]


def framed(draw, packets, channel=0):
    """Packets in transfer frames of one virtual channel, each after a mark; some frames are lost, and some come twice. Also which packets they
    carry whole."""
    fields, lies = laid(packets, FRAME)
    frames, lost = [], set()
    for number, (first, data) in enumerate(fields):
        if number and draw.random() < 0.02:
            lost.add(number)
        else:
            frames += [bytes.fromhex("1ACFFC1D") + frame_of(channel, number, first, data, craft=0x123)] * (2 if draw.random() < 0.02 else 1)
    return frames, [packet for packet, own in zip(packets, lies) if not lost & set(own)], lost


def apid_of(packet):
    """The APID of a Space Packet."""
    return int.from_bytes(packet[:2], "big")


def missing(numbers):
    """The rows of the numbers before the last arrival that did not arrive."""
    return [f"{before + 1},{after - 1},lost,0" for before, after in itertools.pairwise([-1, *sorted(set(numbers))]) if after - before > 1]


def runs_of(numbers):
    """How many runs of numbers in a row there are."""
    return sum(number - 1 not in numbers for number in numbers)


def out_of_limits(numbers, packets):
    """The stretches of packets at which the current is out of its limits: the first packet, how many, and the worst value."""
    values = [(number, int.from_bytes(packet[1:3], "big", signed=True)) for number, packet in zip(numbers, packets)]
    stretches = [(side, list(some)) for side, some in itertools.groupby(values, lambda one: (one[1] > 900) - (one[1] < -900))]
    return [(some[0][0], len(some), (max if side > 0 else min)(value for _, value in some)) for side, some in stretches if side]


def stretches_of(events):
    """The same of the lines of events."""
    cells = [line.split(",") for line in events.decode().splitlines()[1:]]
    return [(int(row[3]), int(row[7]), int(row[8])) for row in cells if row[0] == "current"]


class Day(unittest.TestCase):
    def setUp(self):
        self.draw, self.files = random.Random(20261129), Folder(self.enterContext(tempfile.TemporaryDirectory(prefix="pocket-day-")))
        self.put, self.get = self.files.put, self.files.get

    def ran(self, words):
        """How a command ended, and what it said."""
        ran = subprocess.run([PROGRAM, *words.split()], cwd=self.files.folder, capture_output=True, text=True, timeout=60)
        return ran.returncode, ran.stderr

    def done(self, words):
        self.assertEqual(self.ran(words), (0, ""), words)

    def tool(self, words, given=None):
        """What a tool of the Python module writes and says."""
        env = dict(os.environ, PYTHONPATH=os.path.join(TOP, "library", "python"), PYTHONDONTWRITEBYTECODE="1")
        ran = subprocess.run([sys.executable, "-m", "pocket", *words.split()], cwd=self.files.folder, input=given, capture_output=True, env=env, timeout=60)
        self.assertEqual(ran.returncode, 0, f"{words} said {ran.stderr.decode()}")
        return ran.stdout, ran.stderr.decode()

    def same(self, name, found, wanted):
        with self.subTest(name):
            self.assertEqual(found, wanted)

    def agrees(self, name, recording, bits, arrived, rows, contents):
        """A report and contents are right: each number up to the last arrival that no row names has its content, in order; exactly those that did
        not arrive are lost; and the last row counts."""
        size, (*told, end) = -(-bits // 8), [row.split(",") for row in rows]
        named = {number for first, last, *_ in told for number in range(int(first), int(last) + 1)}
        written = [number for number in range(max(arrived, default=-1) + 1) if number not in named]
        with self.subTest(name):
            self.assertEqual([",".join(row) for row in told if row[2] == "lost"], missing(arrived), "the lost ones")
            wanted = b"".join(recording[number * size:number * size + size] for number in written)
            self.assertEqual(contents, wanted, f"the contents of the {len(written)} packets that the report leaves")
            self.assertEqual(end, ["end", *map(str, (len(arrived), len(written), len(arrived) - len(set(arrived))))], "arrivals, written and repeats")

    def compressed(self, name, recording, bits, apid, robust, plan):
        """The packets that the program makes of a recording, which stand in a store too."""
        self.put(f"{name}.rec", recording)
        self.put(f"{name}.plan", plan)
        self.done(f"compress in={name}.rec out={name}.store bits={bits} apid={apid} robust={robust} plan={name}.plan")
        return list(packets_of(self.get(f"{name}.store")))

    def test_day(self):
        """The day, step by step."""
        recordings = {apid: b"".join(housekeeping(self.draw, bits, count)) for apid, bits, count, _, _ in STREAMS}
        sent = {apid: self.compressed(apid, recordings[apid], bits, apid, robust, plan) for apid, bits, _, robust, plan in STREAMS}
        for apid, _, count, *_ in STREAMS:
            self.same(f"the packets of {apid}", len(sent[apid]), count)
        self.put("streams.csv", "".join(f"{apid},{bits}\n" for apid, bits, *_ in STREAMS))
        both = self.two_stations(recordings, sent)
        self.late_pass(recordings, sent)
        self.looked_at(recordings[100], both)
        self.dumped_and_restarted()

    def two_stations(self, recordings, sent):
        """Two passes, of which the first is cut in the midst of a packet; gives what arrived of both."""
        begins = {apid: 2 * count // 3 - OVERLAP for apid, _, count, _, _ in STREAMS}
        first = {apid: over_a_link(self.draw, range(begins[apid] + OVERLAP), late=False) for apid in sent}
        second = {apid: over_a_link(self.draw, range(begins[apid], len(sent[apid])), late=False) for apid in sent}
        stations = []
        for name, arrived in (("first", first), ("second", second)):
            frames, whole, lost = framed(self.draw, woven([[sent[apid][number] for number in arrived[apid]] for apid in sent]))
            store, told = self.tool(f"frames length={FRAME + 6} sync=1", b"".join(frames))
            self.same(f"the frames of the {name} station", (store, told.count("are missing")), (b"".join(whole), runs_of(lost)))
            stations.append(whole)
            arrived.update({apid: [sent[apid].index(packet) for packet in whole if apid_of(packet) == apid] for apid in sent})

        # The first pass is cut in its last packet: it is refused with the place, and what is before it is restored.
        pass_one, at = b"".join(stations[0]), len(b"".join(stations[0][:-1]))
        self.put("cut.store", pass_one[:at + 4])
        cut = self.ran("multi in=cut.store out=cut.out report=cut.report streams=streams.csv")
        self.same("a cut pass", cut, (4, f"pocket: store packet at byte {at} is cut\n"))
        first[apid_of(stations[0][-1])].pop()
        self.put("first.store", pass_one[:at])
        self.put("second.store", b"".join(stations[1]))
        self.restored_together("first", recordings, first)

        # The second station begins before the first one ends: both are joined, and each stream is restored out of all that came.
        both = {apid: sorted(set(first[apid] + second[apid])) for apid in sent}
        self.tool(f"merge first.store second.store {' '.join(f'near={apid}:{begins[apid]}' for apid in sent)} out=both.store")
        joined = sorted(sent[apid][number] for apid in sent for number in both[apid])
        self.same("the stations joined", b"".join(sorted(packets_of(self.get("both.store")))), b"".join(joined))
        self.restored_together("both", recordings, both)
        return both

    def restored_together(self, name, recordings, arrived):
        """What `multi` gives back of a store, stream by stream."""
        self.done(f"multi in={name}.store out={name}.out report={name}.report streams=streams.csv")
        lines, out = self.get(f"{name}.report").decode().splitlines(), list(packets_of(self.get(f"{name}.out")))
        for apid, bits, *_ in STREAMS:
            rows = [line.partition(",")[2] for line in lines if line.startswith(f"{apid},")]
            own = b"".join(packet[6:] for packet in out if apid_of(packet) == apid)
            self.put(f"{apid}.{name}", own)
            self.agrees(f"{apid} of {name}", recordings[apid], bits, arrived[apid], rows, own)

    def late_pass(self, recordings, sent):
        """A pass of all, in which packets come late."""
        late = {apid: over_a_link(self.draw, range(len(sent[apid])), late=True) for apid in sent}
        self.put("late.store", b"".join(woven([[sent[apid][number] for number in late[apid]] for apid in sent])))
        for apid, bits, *_ in STREAMS:
            self.done(f"late in=late.store out={apid}.late report={apid}.report bits={bits} apid={apid} window={WINDOW}")
            *rows, left = self.get(f"{apid}.report").decode().splitlines()[1:]
            self.agrees(f"{apid} of a late pass", recordings[apid], bits, late[apid], rows, self.get(f"{apid}.late"))
            self.same(f"{apid} too late", left, "late,0")

    def looked_at(self, recording, both):
        """The numbers of the first stream: the table, the plot's numbers with their times, the events of limits, and the way back."""
        self.put("fields.csv", FIELDS)
        self.done("table in=100.both out=100.table report=100.limits fields=fields.csv bits=64")
        restored = sum(len(self.get(f"{apid}.both")) * 8 // (bits + -bits % 8) for apid, bits, *_ in STREAMS)
        with self.subTest("most packets"):
            self.assertGreater(2 * restored, sum(map(len, both.values())))
        wanted = [part.encode() for part in table(self.get("100.both"), FIELDS, 64)]
        self.same("the table", [self.get("100.table"), self.get("100.limits")], wanted)
        self.same("a limit", b",current," in wanted[1], True)
        self.same("the table packed again", self.tool("pack fields=fields.csv bits=64 in=100.table")[0], self.get("100.both"))
        head, *plot = self.tool("numbers table=100.table report=both.report apid=100 start=2026-11-30T00:00:00Z step=1")[0].splitlines()
        numbers = [int(line.split(b",")[0]) for line in plot]
        times = [b"%d,2026-11-30T%02d:%02d:%02dZ" % (number, number // 3600, number // 60 % 60, number % 60) for number in numbers]
        lines = [b"%b,%b" % (time, line.partition(b",")[2]) for time, line in zip(times, wanted[0].splitlines()[1:])]
        own = [recording[8 * number:8 * number + 8] for number in numbers]
        self.same("the numbers of the plot", (b"".join(own), [head, *plot]), (self.get("100.both"), [b"number,time,mode,current,clock", *lines]))
        events, _ = self.tool("numbers table=100.table report=both.report apid=100 fields=fields.csv bits=64 as=events")
        self.same("the events", stretches_of(events), out_of_limits(numbers, own))

    def cut_at(self, name):
        """Cuts a store in two at the byte at which the document's search finds the most packets lost."""
        search = next(line[6:] for line in text_of("docs/OPERATING.md").splitlines() if line.startswith("    $ perl -0777"))
        told = subprocess.check_output(["bash", "-c", search.replace("restarted.store", f"{name}.store")], cwd=self.files.folder, text=True)
        place = max((int(line.split()[-2]), int(line.split()[1].rstrip(":"))) for line in told.splitlines())[1]
        store = self.get(f"{name}.store")
        self.put(f"{name}.before", store[:place])
        self.put(f"{name}.after", store[place:])

    def dumped_and_restarted(self):
        """Two live stations, of which the first has a recorder's dump of earlier packets on another channel, and a restart in the midst."""
        recordings, sent = [], []
        for name, count in (("old", BEFORE), ("new", AFTER)):
            recordings.append(b"".join(housekeeping(self.draw, 64, count)))
            sent.append(self.compressed(name, recordings[-1], 64, 103, 2, "0,4294967295,30,p\n40,4294967295,40,fr\n"))
        dump, arrived = framed(self.draw, sent[0][:DUMPED], 1), {}
        for name, begin in (("one", DUMPED - 30), ("other", DUMPED + 200)):
            came = [(packets, over_a_link(self.draw, range(first, len(packets)), late=False)) for first, packets in ((begin, sent[0]), (0, sent[1]))]
            live = [packets[number] for packets, numbers in came for number in numbers]
            frames, arrived[name], _ = framed(self.draw, live)
            mixed = b"".join(frame for _, frame in sorted(enumerate(frames + dump[0] * (name == "one")), key=lambda one: one[0] % len(frames)))
            self.tool(f"frames length={FRAME + 6} sync=1 vcid=0 out={name}.store report={name}.told", mixed)
            self.same(f"the live packets of the {name} station", self.get(f"{name}.store"), b"".join(arrived[name]))
            self.cut_at(name)
            if name == "one":
                self.tool(f"frames length={FRAME + 6} sync=1 vcid=1 out=dump.store report=dump.told", mixed)
                self.same("the dump", self.get("dump.store"), b"".join(dump[1]))
        self.tool(f"merge one.before other.before near={DUMPED + 200 + 3000} dump.store near=0 out=before.store report=before.told")
        self.tool("merge one.after other.after span=short out=after.store report=after.told")
        for name, recording, packets, more in zip(("before", "after"), recordings, sent, (dump[1], [])):
            self.done(f"restore in={name}.store out={name}.restored report={name}.report bits=64 apid=103")
            numbers = {packet: number for number, packet in enumerate(packets)}
            own = sorted({numbers[packet] for packet in [*arrived["one"], *arrived["other"], *more] if packet in numbers})
            rows = self.get(f"{name}.report").decode().splitlines()[1:]
            self.agrees(f"the packets {name} the restart", recording, 64, own, rows, self.get(f"{name}.restored"))
        self.done("restore in=one.store out=one.restored report=one.report bits=64 apid=103")
        self.done("table in=one.restored out=one.table report=one.limits fields=fields.csv bits=64")
        with self.subTest("the restart by the numbers"):
            self.assertIn("if the board restarted there", self.tool("numbers table=one.table report=one.report start=2026-11-30T00:00:00Z step=1")[1])
