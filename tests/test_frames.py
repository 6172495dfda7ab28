"""Transfer frames that are made here, bit by bit after CCSDS 132.0-B, and what `python3 -m pocket frames` takes out of them: packets over
frames, idle packets and frames, missing, damaged and cut ones, marks, other channels, and each refusal. Also 10,000 random frames beside
gr-satellites' definitions."""

import importlib.util
import io
import itertools
import os
import random
import sys
import tempfile
from unittest import mock

from library import LibraryTest, run
from packets import frame_of, laid, packet
from pocket import frames
from pocket.tool import ToolError

ROUNDS, PACKET = 150, bytes.fromhex("0064C000000285B8D6")


def packet_of(draw, number, apid=None):
    data = draw.randbytes(draw.choice([1, 2, 5, 30, 200]))
    return packet(draw.choice([100, 101, 102]) if apid is None else apid, number, data)


class Pass:
    """A random pass: packets, the frames that carry them, and in which frames each packet lies."""

    def __init__(self, draw):
        self.control, self.sync, self.channel = draw.random() < 0.5, draw.random() < 0.5, draw.randrange(8)
        second, operational = draw.choice([b"", b"\0abc"]), draw.choice([b"", b"clcw"])
        self.room = draw.choice([8, 13, 60, 300])
        self.length = 6 + len(second) + self.room + len(operational) + 2 * self.control
        self.packets = [packet_of(draw, number, 2047 if draw.random() < 0.1 else None) for number in range(draw.randrange(1, 40))]
        fields, self.lies = laid(self.packets, self.room)
        self.frames = [frame_of(self.channel, number + 250, first, data, self.control, second, operational) for number, (first, data) in enumerate(fields)]

    def store(self, lost):
        """What comes out if these frames are lost."""
        return b"".join(whole for whole, lies in zip(self.packets, self.lies) if whole[:2] != b"\x07\xff" and not lost & set(lies))


def taken(data, **words):
    """What comes out of frames, what is told, the sums, and the status; or the refusal."""
    told, found = [], []
    numbers = dict.fromkeys(frames.KEYS) | {key: None if value is None else int(value) for key, value in words.items()}
    run = frames.Run(numbers, told.append)
    try:
        found = list(run.packets(io.BytesIO(data)))
        return b"".join(found), told, run.sums, run.end()
    except ToolError as refusal:
        return b"".join(found), [*told, str(refusal)], run.sums, refusal.status


class Damage:
    """A pass with damage of every kind: the frames that come, how many are bad, of strangers and of other channels, and which packets are lost."""

    def __init__(self, draw, one):
        self.draw, self.one, self.came, self.numbers = draw, one, [], [250]
        self.bad = self.strangers = self.others = self.repeated = 0
        # (frames that give nothing, and the frames of which the packets that begin in the one before are cut)
        self.lost, self.cut = set(), set()
        rate = draw.choice([0, 0.05, 0.2, 0.6])
        for number, frame in enumerate(one.frames):
            fate = draw.choice([self.gone, self.again, self.other, self.version, self.pointer, self.unpacked, self.craft, self.channel, self.count, self.data, self.stranger])
            if number and draw.random() < rate:
                fate(number, frame)
            else:
                self.good(number, frame)

    def good(self, number, frame):
        self.came.append(frame)
        self.numbers.append(number + 250)

    def gone(self, number, frame):
        self.lost.add(number)

    def again(self, number, frame):
        self.good(number, frame)
        times = self.draw.randrange(1, 4)
        self.came += [frame] * times
        self.repeated += times

    def other(self, number, frame):
        """The frame comes again with another byte: that is no frame, and cuts the packet that goes on, unless the error control tells it."""
        self.good(number, frame)
        self.came.append(turned(frame, len(frame) - (3 if self.one.control else 1), 1))
        self.bad += 1
        if not self.one.control:
            self.cut.add(number + 1)

    def missing(self, number, frame, at, bits):
        """The frame comes with bits turned, so that it counts as missing."""
        self.came.append(turned(frame, at, bits))
        self.lost.add(number)
        self.bad += 1

    def version(self, number, frame):
        self.missing(number, frame, 0, self.draw.choice([0x40, 0x80, 0xC0]))

    def pointer(self, number, frame):
        """The pointer shows past the data."""
        wanted = self.draw.randrange(self.one.room, 0x7FE)
        frame = turned(frame, 4, (frame[4] ^ wanted >> 8) & 7)
        self.missing(number, frame, 5, frame[5] ^ wanted & 0xFF)

    def unpacked(self, number, frame):
        self.missing(number, frame, 4, 0x40)

    def craft(self, number, frame):
        self.missing(number, frame, 1, self.draw.choice([0x10, 0xF0]))
        if not self.one.control:
            self.bad, self.strangers = self.bad - 1, self.strangers + 1

    def channel(self, number, frame):
        self.missing(number, frame, 1, 2 * self.draw.randrange(1, 8))
        if not self.one.control:
            self.bad, self.others = self.bad - 1, self.others + 1

    def count(self, number, frame):
        """Another number: what goes on from the frame before or into the one after is cut."""
        if self.one.control or number < 2:
            self.missing(number, frame, 3, 0x51) if self.one.control else self.good(number, frame)
            return
        # (other bits than those of its neighbours, with which it would go on)
        bits = (0x50, 0xA0)[number % 2]
        self.came.append(turned(frame, 3, bits))
        self.numbers.append(frame[3] ^ bits)
        self.cut |= {number, number + 1}

    def data(self, number, frame):
        """Turned data are told by the error control alone."""
        if self.one.control:
            self.missing(number, frame, self.draw.randrange(6, len(frame)), 1 << self.draw.randrange(8))
        else:
            self.good(number, frame)

    def stranger(self, number, frame):
        """A frame of another channel or spacecraft in between."""
        craft, channel = self.draw.choice([(0x155, self.one.channel ^ 1), (0x2AA, self.one.channel), (0x154, self.one.channel ^ 3)])
        rest = bytes(self.one.length - 6 - 2 * self.one.control)
        self.came.append(frame_of(channel, self.draw.randrange(256), 0x7FE, rest, self.one.control, craft=craft))
        self.strangers, self.others = self.strangers + (craft != 0x155), self.others + (craft == 0x155)
        self.good(number, frame)

    def wanted(self):
        """The packets that are neither lost nor cut."""
        return b"".join(whole for whole, lies in zip(self.one.packets, self.one.lies) if whole[:2] != b"\x07\xff" and not self.lost & set(lies) and not self.cut & set(lies[1:]))


def turned(frame, at, bits):
    return frame[:at] + bytes([frame[at] ^ bits]) + frame[at + 1:]


class Frames(LibraryTest):
    def test_passes(self):
        """Random passes: whole, with noise between marks, and with damage of every kind."""
        draw, poor = random.Random(20261130), 0
        for turn in range(ROUNDS):
            one = Pass(draw)
            words = dict(length=one.length, sync=one.sync, control=one.control, vcid=draw.choice([None, one.channel]), scid=draw.choice([None, 0x155]))
            mark = frames.MARK if one.sync else b""
            found, told, sums, status = taken(b"".join(mark + frame for frame in one.frames), **words)
            self.assertEqual((found, status, sums["read"], sums["taken"], len(told)), (one.store(set()), 0, len(one.frames), len(one.frames), 2), turn)
            if one.sync:
                found, told, _, status = taken(b"noise" * 999 + b"".join(mark + frame for frame in one.frames) + mark[:3], **words)
                self.assertEqual(found, one.store(set()), turn)
                self.assertTrue(status == 4 or told[0] == "4995 bytes at byte 0 are no frame: no mark begins there" and len(told) == 4, (turn, told))
            poor += self.damage(draw, one, words, mark)
        self.assertTrue(0 < poor < ROUNDS // 2, f"{poor} of {ROUNDS} were poor")

    def damage(self, draw, one, words, mark):
        """Damages a pass; returns whether most of it was hurt."""
        hurt = Damage(draw, one)
        found, told, sums, status = taken(b"".join(mark + frame for frame in hurt.came), **words)
        missing = sum((after - before - 1) % 256 for before, after in zip(hurt.numbers[1:], hurt.numbers[2:]))
        is_poor = 2 * (hurt.bad + (hurt.strangers if words["scid"] is None else 0) + (hurt.others if words["vcid"] is None else 0)) > len(hurt.came)
        self.assertEqual(found, hurt.wanted(), told)
        self.assertIn(status, (4,) if is_poor else (0, 3) if words["vcid"] is None else (0,), told)
        self.assertEqual((sums["read"], sums["bad"], sums["repeated"], sums["missing"]), (len(hurt.came), hurt.bad, hurt.repeated, missing))
        return is_poor

    def test_worked(self):
        """Worked frames by hand."""
        one = frame_of(2, 7, 0, PACKET)
        sums = ["1 frames were read, 0 of them bad, 0 of other spacecraft, 1 of virtual channel 2 of spacecraft 341",
                "virtual channel 2: 0 frames missing, 0 repeated, 0 idle; 1 packets, and 0 that were cut"]
        found, told, _, status = taken(one, length=15)
        self.assertEqual((one.hex(), found, told, status), ("15541507" + "1800" + PACKET.hex(), PACKET, sums, 0))
        halves = [frame_of(2, 7, 0, PACKET[:5]), frame_of(2, 8, 4, PACKET[5:] + b"\x07")]
        self.assertEqual(taken(b"".join(halves), length=11)[0], PACKET)
        self.assertIn("doesn't end the one before", taken(halves[0] + frame_of(2, 8, 3, PACKET[5:] + b"\x07"), length=11)[1][0])
        self.assertIn("idle data alone", taken(halves[0] + frame_of(2, 8, 0x7FE, bytes(5)), length=11)[1][0])
        self.assertEqual(taken(one + one[:3], length=15)[1][0], "the frame at byte 15 is cut: it is left out")
        self.assertEqual(taken(halves[0], length=11)[1][0], "the frames end, which cuts a packet of which 5 bytes came: it is left out")
        found, told, _, status = taken(one + one + frame_of(2, 8, 0, PACKET), length=15)
        self.assertEqual((found, told[1].split(";")[0], status), (PACKET * 2, "virtual channel 2: 0 frames missing, 1 repeated, 0 idle", 0))
        found, told, *_ = taken(halves[0] + turned(halves[0], 10, 1) + halves[1] + frame_of(2, 9, 0, PACKET[:5]), length=11)
        self.assertEqual((found, told[0]), (b"", "the frame at byte 11 has the number of the one before and other bytes: it counts as missing, which cuts a packet of which 5 bytes came: it is left out"))
        checked = [frame_of(2, 7, 0, PACKET, True), frame_of(2, 7, 0, PACKET[:-1] + b"\xd7", True)]
        self.assertEqual(taken(b"".join(checked), length=17, control=1)[1][0], "255 frames are missing before the frame at byte 17")
        for frame, wanted in [(b"\x55" + one[1:], "is of another version"), (one[:4] + b"\x58" + one[5:], "carries no packets, by its synchronization flag"),
                              (one[:4] + b"\x18\x09" + one[6:], "points past its data for its first packet: length= may not be its length")]:
            found, told, *_ = taken(one + frame + frame_of(2, 9, 0, PACKET), length=15)
            self.assertEqual((found, told[:2]), (PACKET * 2, [f"the frame at byte 15 {wanted}: it counts as missing", "1 frames are missing before the frame at byte 30"]))
        empty = frame_of(2, 8, 0, b"", operational=b"clcw" + bytes(5))
        self.assertTrue("has no room for data" in taken(one + empty[:6] + b"\xff" * 9 + one, length=15)[1][0] or taken(frame_of(2, 7, 0, b"", operational=b"clcw"), length=10)[3] == 4)

    def test_others(self):
        """Frames of other channels and spacecraft in between."""
        one, last = frame_of(2, 7, 0, PACKET), frame_of(2, 8, 0, PACKET)
        mixed = one + frame_of(3, 200, 0, PACKET) + last
        found, told, _, status = taken(mixed, length=15)
        self.assertEqual((found, told[2], status), (PACKET * 2, "another virtual channel has packets, which are not taken: say vcid=", 3))
        self.assertEqual((taken(mixed, length=15, vcid=2)[3], taken(mixed, length=15, vcid=3)[0]), (0, PACKET))
        crafts = one + frame_of(2, 99, 0, PACKET, craft=7) + last
        found, told, *_ = taken(crafts, length=15)
        self.assertEqual((found, taken(crafts, length=15, scid=7)[0]), (PACKET * 2, PACKET))
        self.assertIn("1 of other spacecraft", told[0])

    def test_wrong_lengths(self):
        """A wrong length, with or without marks and error control, is told in one line, with a status of its own."""
        draw = random.Random(20261201)
        packets = b"".join(packet_of(draw, number) for number in range(400))
        for control, sync in itertools.product((0, 1), repeat=2):
            made = [frame_of(0, number, 0x7FF if number else 0, packets[at:at + 100], control) for number, at in enumerate(range(0, len(packets) - 100, 100))]
            data = b"".join(bytes.fromhex("1ACFFC1D") * sync + frame for frame in made)
            for length in (len(made[0]) - 1, len(made[0]) + 1, 2 * len(made[0]) + 3, 50):
                with self.subTest(length, control=control, sync=sync):
                    _, told, _, status = taken(data, length=length, control=control, sync=sync)
                    self.assertEqual((status, len(told)), (4, 1))

    def test_no_frames(self):
        """So is no frame at all."""
        with mock.patch.object(frames, "LINES", 500):
            self.assertEqual(taken(bytes(15 * 3) + b"\xff" * 15 * 1000, length=15)[3], 4)
        self.assertEqual(taken(b"", length=15)[1], ["0 frames were read, 0 of them bad, 0 of other spacecraft, and 0 were taken: length=, sync=, control=, scid= or vcid= may be wrong"])
        self.assertEqual(taken(frame_of(2, 7, 0, bytes(9)), length=15, vcid=3)[3], 4)

    def test_many_lines(self):
        """Of bad frames before good ones so many lines are told, and the others counted; more than half of all frames have to be bad for the status 4."""
        good = [frame_of(2, number % 256, 0, PACKET) for number in range(400)]
        with mock.patch.object(frames, "LINES", 150):
            for bad, wanted in ((150, 0), (151, 0), (400, 0), (401, 4)):
                found, told, sums, status = taken(b"\xff" * 15 * bad + b"".join(good), length=15)
                self.assertEqual((found, status, sums["read"], sums["bad"]), (PACKET * 400, wanted, 400 + bad, bad), told)
                if wanted == 0:
                    lines = [f"the frame at byte {15 * place} is of another version: it counts as missing" for place in range(150)]
                    more = [f"{bad - 150} lines more, of the next frames, are left out"] if bad > 150 else []
                    self.assertEqual((told[:-2], len(told)), (lines + more, len(lines + more) + 2))

    def test_refused(self):
        for words, wanted in [([], "length= is missing"), (["length=7"], "length=7: length= takes a number from 8 to 2048"), (["length=8", "length=9"], "length= is given twice"),
                              (["size=8"], "size=8: the arguments are length=, vcid=, scid=, sync=, control=, out=, report="),
                              (["length=2049"], "length=2049: length= takes a number from 8 to 2048"), (["length=8", "vcid=8"], "vcid=8: vcid= takes a number from 0 to 7"), (["length=8", "scid=1024"], "scid=1024: scid= takes a number from 0 to 1023")]:
            with self.subTest(words), self.assertRaises(ToolError) as refusal:
                frames.run(words)
            self.assertEqual(str(refusal.exception), wanted)

    def test_definitions(self):
        """Ten thousand random frames are read as gr-satellites' definition of a header reads them. Its package is looked at, and not installed."""
        header_of = self.definition().PrimaryHeader.parse
        draw, refused, agreed = random.Random(20261130), 0, 0
        for _ in range(10000):
            frame = draw.randbytes(5) + bytes([draw.randrange(256)]) + draw.randbytes(2042)
            frame = bytes([frame[0] & (0x3F if draw.random() < 0.9 else 0xFF)]) + frame[1:]
            header = header_of(frame[:6])
            start = 6 + header.transfer_frame_secondary_header_flag * ((frame[6] & 0x3F) + 1)
            data = frame[start:len(frame) - 4 * header.ocf_flag]
            is_right = header.transfer_frame_version_number == 0 and not header.synch_flag
            is_right = is_right and (header.first_header_pointer >= 0x7FE or header.first_header_pointer < len(data))
            wanted = frames.Frame(0, header.virtual_channel_frame_count, header.first_header_pointer, data, frame)
            one = frames.Run(dict.fromkeys(frames.KEYS), print)
            try:
                agreed += one.frame(0, frame) == wanted and (one.scid, one.vcid) == (header.spacecraft_id, header.virtual_channel_id) and is_right
            except frames.Bad:
                refused += not is_right
        self.assertTrue(agreed + refused == 10000 and agreed > 3000 and refused > 3000, f"{agreed} frames agree and {refused} are refused by both")

    def definition(self):
        """The module that gr-satellites has of it, if its package can be had."""
        folder = self.enterContext(tempfile.TemporaryDirectory(prefix="pocket-frames-"))
        try:
            run("apt-get", "-q", "download", "gr-satellites", "python3-construct", cwd=folder)
            for name in os.listdir(folder):
                run("dpkg", "-x", name, ".", cwd=folder)
        except (OSError, RuntimeError):
            self.skipTest("gr-satellites can't be had")
        packages = os.path.join(folder, "usr", "lib", "python3", "dist-packages")
        self.enterContext(mock.patch.object(sys, "path", [*sys.path, packages]))
        found = importlib.util.spec_from_file_location("telemetry", f"{packages}/satellites/ccsds/telemetry.py")
        module = importlib.util.module_from_spec(found)
        found.loader.exec_module(module)
        return module
