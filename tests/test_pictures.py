#!/usr/bin/env python3
"""pictures/draw.py, and the pictures of docs/. Run alone this draws those anew."""

import os
import pathlib
import subprocess
import sys
import tempfile
import time
import unittest
import xml.etree.ElementTree as xml

from program import TOP
from rows import FORECASTED, LISTING, sample
from table import table

PACKET = ["recent changes: no place=10", "effective robustness level: 1=0001", "not short: a mask or whole content follows=0", "the mask is sent=1",
          "the edges of the mask: none, so the mask is 00=10", "the content is whole=1", "number of places: 8=11000110", "content: B0=10110000"]
DRAWN = {"loss.svg": (["listing"], LISTING), "packet.svg": (["packet"] + PACKET, b""), "forecast.svg": (["forecast"], FORECASTED)}

# Each line of a listing, and what the picture says of the packet.
EACH = [(b"0 written 15 00 00 b0", "packet 0: written, level 15, repeated 2 times"), (b"0 repeat", ""), (b"0 repeat", ""),
        (b"1 written 0 01 - b1", "packet 1: written, level 0, its mask is not known"), (b"2-3 lost", "packet 3: lost"),
        (b"4 gap 1 mask 0f", "packet 4: gap, level 1, its mask is known"), (b"5 gap 0", "packet 5: gap, level 0"),
        (b"6 unsynced", "packet 6: unsynced"), (b"7 unsynced mask 0f", "packet 7: unsynced, its mask is known"),
        (b"8 wrong 12", "packet 8: wrong, bit 12"), (b"9 early 8", "packet 9: early, bits 8"), (b"end 10 2 2", "")]
LONG = b"".join(b"%d written %d 00 00 b0\n" % (number, number % 16) for number in range(3000))
# A store in disorder: each packet seems to come after some sixteen thousand lost ones.
DISORDER = b"".join(b"%d gap 2\n%d-%d lost\n" % (16384 * number, 16384 * number + 1, 16384 * number + 16383) for number in range(10_000))
# The bytes that a picture may have, and the seconds that it may take.
MOST_BYTES, MOST_SECONDS = 1_000_000, 120

# Forecasts, and what their pictures say: of few packets, of one state, of none that arrives, and of the most packets.
FORECASTS = [
    (FORECASTED, ["packet 10: lost", "packets 195 to 199: open", "packets 300 to 399: sure", "packets 400 to 499: sure", "packets 500 to 529: sure"]),
    (b"first,last,state\n0,0,sure\ngaps,0,0\nend,1,1\n", ["1 packets, of which 1 are sure to be written", "packet 0: sure"]),
    (b"first,last,state\n0,3,lost\ngaps,-,0\nend,4,0\n", ["packets 0 to 3: lost"]),
    (b"first,last,state\n0,1,lost\n2,2,open\n3,4,lost\n5,999999,open\ngaps,2,3\nend,1000000,0\n",
     ["packets 0 to 199: 196 open, 4 lost", "packets 200 to 49999: open", "packets 950000 to 999999: open"]),
]

# What is refused: the words, the listing, and the fault that is named.
REFUSED = [
    (["listing"], b"0 written 1 00 00 b0\n1 writen 1 01 01 b1\n", "line 2 is wrong: it is no line of a listing"),
    (["listing"], b"0 written 1 00 00 b0\n2 gap 0\n", "line 2 is wrong: packet 1 comes next"),
    (["listing"], b"0 written 16 00 00 b0\n", "line 1 is wrong: a level is at most 15"),
    (["listing"], b"".join(b"%d gap 0\n" % number for number in range(200_001)), "line 200001 is wrong: more than 200000 lines"),
    (["listing"], b"5-4 lost\n", "line 1 is wrong"),
    (["listing"], b"0 gap 0\n1 repeat\n", "line 2 is wrong: it repeats a packet that is not the latest one"),
    (["listing"], LISTING.replace(b"end 3", b"end 4"), "line 5 is wrong: the lines before it have other numbers: 3 3 0"),
    (["listing"], LISTING + b"4 gap 0\n", "line 6 is wrong: nothing comes after the last line"),
    (["listing"], b"first,last,cause,value\n2,2,lost,0\n", "line 1 is wrong"),
    (["packet", "level=0001", "mask=2"], b"", "part 2 is wrong: it is no NAME=BITS"),
    (["forecast"], LISTING, "line 1 is wrong: it is not first,last,state"),
    (["forecast"], FORECASTED.replace(b"11,49,sure", b"12,49,sure"), "line 4 is wrong: packet 11 comes next"),
    (["forecast"], FORECASTED.replace(b"11,49,sure", b"11,10,sure"), "line 4 is wrong: its last number is below its first"),
    (["forecast"], FORECASTED.replace(b"11,49,sure", b"11,49,lost"), "line 4 is wrong: the packets before it have the same state"),
    (["forecast"], FORECASTED.replace(b"11,49,sure", b"11,49,safe"), "line 4 is wrong: it is no line of a forecast"),
    (["forecast"], FORECASTED.replace(b"999,999,lost", b"999,1000000,lost"), "line 16 is wrong: more than 1000000 packets"),
    (["forecast"], FORECASTED.replace(b"gaps,0,6", b"gaps,0,5"), "line 17 is wrong: the lines before it have other numbers: gaps,0,6"),
    (["forecast"], FORECASTED.replace(b"end,1000,821", b"end,1000,820"), "line 18 is wrong: the lines before it have other numbers: end,1000,821"),
    (["forecast"], FORECASTED[:-13], "line 18 is wrong: the lines before it have other numbers: end,1000,821"),
    (["forecast"], FORECASTED[:-22], "line 17 is wrong: the forecast has no last line"),
    (["forecast"], FORECASTED + b"gaps,0,6\n", "line 19 is wrong: nothing comes after the last line"),
]


# What is refused of the sample: which part is changed, from what to what, and the fault that is named.
WRONG_TABLES = [
    (1, "t,mode", "mode", "line 1 of the table is wrong: it names no fields"),
    (1, "\n1,1,", "\n2,1,", "line 3 of the table is wrong: it has not packet 1 and 5 values"),
    (1, "\n1,1,", "\n1,01,", "line 3 of the table is wrong"),
    (1, "\n1,1,", "\n1,1,1,", "line 3 of the table is wrong"),
    (2, "0,temperature_C,-14", "0,temperature_C,-13", "line 2 of the report is wrong"),
    (2, "end,60,28\n", "", "line 30 of the report is wrong"),
    (2, "end,60,28\n", "end,60,28\nend,60,28\n", "line 31 of the report is wrong: nothing comes after the last line"),
]


def draw(words, given):
    return subprocess.run([sys.executable, os.path.join(TOP, "pictures", "draw.py"), *words], input=given, capture_output=True, timeout=60)


def draw_table(fields, text, report):
    """What is drawn of a table, its report and the parameter file of its fields."""
    with tempfile.TemporaryDirectory() as folder:
        for name, content in (("fields", fields), ("report", report)):
            pathlib.Path(folder, name).write_text(content)
        return draw(["table", os.path.join(folder, "report"), os.path.join(folder, "fields")], text.encode())


def sample_table():
    """The sample's fields, its table and its report."""
    fields = sample("hk.csv").decode()
    return fields, *table(sample("hk.rec"), fields, 64)


def drawn():
    """The pictures of docs/, as they are drawn."""
    return {**{name: draw(*row) for name, row in DRAWN.items()}, "table.svg": draw_table(*sample_table())}


def titles(picture):
    """What the parts of a picture are called."""
    return [part.text for part in xml.fromstring(picture.stdout).iter() if part.tag.endswith("title")]


class Pictures(unittest.TestCase):
    def refuses(self, found, fault):
        self.assertEqual((found.returncode, found.stdout), (1, b""))
        self.assertTrue(found.stderr.startswith(b"draw.py: " + fault.encode()), found.stderr)

    def test_held(self):
        """The pictures of docs/ are those that are drawn."""
        for name, picture in drawn().items():
            with self.subTest(name), open(os.path.join(TOP, "docs", "pictures", name), "rb") as file:
                self.assertTrue(picture.returncode == 0 and picture.stdout == file.read(), "it is another one: python3 tests/test_pictures.py draws it anew")
                xml.fromstring(picture.stdout)

    def test_each_line(self):
        """Each line of a listing is told, a long one in rows, and one that has no last line, as such."""
        told = titles(draw(["listing"], b"\n".join(line for line, _ in EACH) + b"\n"))
        self.assertEqual([words for _, words in EACH if words and words not in told], [])
        long = draw(["listing"], LONG)
        self.assertEqual([first for first in range(0, 3000, 100) if f">{first}</text>" not in long.stdout.decode()], [])
        self.assertIn("packet 2999: written, level 7", titles(long))
        self.assertIn("has no last line", long.stdout.decode())

    def test_many(self):
        """What has no room alone is still seen, and its picture stays small: a store in disorder, a forecast and a table of many packets."""
        begun, lost = time.monotonic(), b"".join(b"%d,%d,sure\n%d,%d,lost\n" % (10 * t, 10 * t + 8, 10 * t + 9, 10 * t + 9) for t in range(100_000))
        listing = draw(["listing"], DISORDER)
        self.assertIn("packets 0 to 49152: 4 gap, 49149 lost", titles(listing))
        self.assertIn("packets 0 to 199: 180 sure, 20 lost", titles(draw(["forecast"], b"first,last,state\n" + lost + b"gaps,0,2\nend,1000000,900000\n")))
        fields = "field,0,8,u,low\nfield,8,8,u,high\nlimit,high,0,9\n"
        recording = bytes(value for t in range(200_000) for value in (t % 7, 10 if t % 100 == 99 else 9))
        picture = draw_table(fields, *table(recording, fields, 16))
        self.assertEqual(picture.stdout.count(b"values of high above 9, the farthest 10 in packet"), 81)
        self.assertLessEqual(max(len(it.stdout) for it in (picture, listing)), MOST_BYTES)
        self.assertLess(time.monotonic() - begun, MOST_SECONDS)

    def test_forecasts(self):
        for given, wanted in FORECASTS:
            with self.subTest(wanted):
                told = titles(draw(["forecast"], given))
                self.assertEqual([words for words in wanted if words not in told], [])

    def test_refused(self):
        for words, given, fault in REFUSED:
            with self.subTest(fault):
                self.refuses(draw(words, given), fault)

    def test_tables(self):
        """Each value out of its limit is told, and a table with no packet is drawn."""
        told = titles(draw_table(*sample_table()))
        for words in ("60 packets with 5 fields, 28 values out of their limits", "packet 0: temperature_C is -14, below -10",
                      "packet 35: battery_mV is 2795, below 2800", "packet 23: temperature_C is 41, above 40"):
            self.assertIn(words, told)
        self.assertEqual(len(told), 29)
        empty = draw_table("", *table(b"", "", 8))
        self.assertEqual(empty.returncode, 0)
        xml.fromstring(empty.stdout)

    def test_wrong_tables(self):
        for place, old, new, fault in WRONG_TABLES:
            with self.subTest(fault, old=old):
                self.refuses(draw_table(*[part.replace(old, new, 1) if at == place else part for at, part in enumerate(sample_table())]), fault)


if __name__ == "__main__":
    for name, picture in drawn().items():
        pathlib.Path(TOP, "docs", "pictures", name).write_bytes(picture.stdout)
