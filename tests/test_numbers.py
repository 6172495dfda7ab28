"""`python3 -m pocket numbers` and `pack` over tables that table.py works out: packets are packed as they were, numbers and times are those of
what was lost and when, events those of a walk value by value; and each refusal."""

import datetime
import itertools
import math
import random
import re
import tempfile

from library import LibraryTest, ToolFolder
from pocket import numbers, pack, run as command
from table import table

ROUNDS = 60


def fields_of(draw, bits):
    """Fields of a packet, which may lie over each other, and limits of some."""
    rows = []
    for number in range(draw.randrange(1, 7)):
        place = draw.randrange(bits)
        width = draw.randrange(1, min(64, bits - place) + 1)
        rows.append((place, width, draw.choice("us"), draw.choice(["t", "time", "number", "a", "b", "c"]) + str(number) * draw.randrange(2)))
    rows = list({row[3]: row for row in rows}.values())
    limits = [(name, *sorted(draw.randrange(-(1 << width - 1), 1 << width) for _ in range(2))) for _, width, _, name in rows if draw.random() < 0.7]
    return rows, limits


def text_of(rows, limits):
    return "".join(",".join(map(str, ("field", *row))) + "\n" for row in rows) + "".join(",".join(map(str, ("limit", *row))) + "\n" for row in limits)


def covered(rows, bits):
    """The places of a packet that a field has."""
    size = -(-bits // 8)
    return sum({1 << 8 * size - 1 - place for start, width, _, _ in rows for place in range(start, start + width)}).to_bytes(size, "big")


def events(names, limits, packets):
    """The stretches out of limits, value by value: of each the field, the limit, its first packet and the one after it, how many, and the worst."""
    found = []
    for place, name in enumerate(names):
        low, high = limits.get(name, (-math.inf, math.inf))
        values = [(number, own[place]) for number, own in packets]
        stretches = [(side, list(some)) for side, some in itertools.groupby(values, lambda one: (one[1] > high) - (one[1] < low))]
        for (side, some), (_, after) in itertools.zip_longest(stretches, stretches[1:], fillvalue=(0, [(None, 0)])):
            if side:
                number, worst = (max if side > 0 else min)(some, key=lambda one: one[1])
                found.append((name, "high" if side > 0 else "low", some[0][0], after[0][0], len(some), worst, number))
    return sorted(found, key=str)


def point_of(line):
    """A point as Influx reads its line: measurement, tags, fields and time. A backslash before a comma, a space or an equals sign is an escape."""
    series, fields, time = re.split(r"(?<!\\) ", line)
    plain = lambda text: re.sub(r"\\([,= ])", r"\1", text)
    name, *tags = re.split(r"(?<!\\),", series)
    pairs = [re.split(r"(?<!\\)=", tag) for tag in tags]
    return plain(name), {plain(key): plain(value) for key, value in pairs}, {key: int(value.rstrip("iu")) for key, value in (one.split("=") for one in fields.split(","))}, int(time)


# Worked files: of a table the fields, the report of one stream, of one that began anew, and of several.
TEXTS = {
    "fields": "field,0,8,u,t\nfield,8,8,s,temp\nlimit,temp,-10,40\n",
    "table": "t,t,temp\n0,1,-16\n1,2,40\n2,3,-12\n3,4,41\n",
    "report": "first,last,cause,value\n0,0,lost,0\n3,4,gap,2\nend,4,4,0\nlate,0\n",
    "restart": "first,last,cause,value\n0,0,lost,0\n3,18,lost,0\n20,35,lost,0\nend,4,4,0\n",
    "streams": "apid,first,last,cause,value\n100,0,0,lost,0\n100,3,4,gap,2\n101,0,9,lost,0\n100,end,4,4,0\n101,end,0,0,0\nshape,0\n",
}
# Files that are wrong, or don't fit.
WRONG = [("short", "first,last,cause,value\nend,3,3,0\n"), ("open", "first,last,cause,value\n0,0,lost,0\n"), ("rows", "first,last,cause,value\n5,3,lost,0\n"),
         ("columns", "temp,u\n1,2\n"), ("twice", "temp,temp\n1,2\n"), ("great", "temp\n128\n"), ("less", "temp,t\n1\n"), ("empty", ""), ("over", "t,temp\n1,5\n"),
         ("many", "field,0,8,u,t\nfield,0,9,u,temp\n"), ("limits", "field,0,8,u,t\nlimit,u,1,2\n"), ("turned", "field,8,8,s,temp\nfield,0,8,u,t\n"),
         ("empty_row", "apid,first,last,cause,value\n101,end,0,0,0\n100\n"), ("long", "field," * 9 + "x" * 140000), ("more", "t,t,temp\n" + "".join(f"{place},1,1\n" for place in range(5)))]
WORDS, FIELDS = ["table=table", "report=report"], ["fields=fields", "bits=16"]
INFLUX = ["as=influx", "start=1970-01-01T00:00:01Z", "step=1"]
# What is refused, and what is told.
REFUSED = [
    ((numbers, "table=table", "report=short"), "table has 4 packets, and by short 3 were restored"),
    ((numbers, "table=table", "report=open"), "open has no row end: the store was not read to its end"),
    ((numbers, "table=table", "report=rows"), "rows: line 2 is no row of a report: 5,3,lost,0"),
    ((numbers, "table=table", "report=streams"), "streams: line 1 is not first,last,cause,value: say apid=N of a report of several streams"),
    ((numbers, "table=table", "report=empty_row", "apid=100"), "empty_row: line 3 is no row of a report: "),
    ((numbers, "table=report", "report=report"), "report: line 1 is not that of a table: t and the names of fields"),
    ((numbers, *WORDS, "as=xml"), "as=xml: as= takes csv, influx or events"),
    ((numbers, *WORDS, "as=events"), "as=events takes fields= and bits=, those of the table"),
    ((numbers, *WORDS, "start=today", "step=1"), "start=today: start= takes a time in UTC, as 2026-11-30T06:00:00Z"),
    ((numbers, *WORDS, "step=1"), "step= is given without start="),
    ((numbers, "table=gone", "report=gone", "time=t", "epoch=2000-01-01T00:00:00Z"), "unit= is missing beside time="),
    ((numbers, "table=gone", "report=gone", "unit=1"), "unit= is given without time="),
    ((numbers, "table=gone", "report=gone", "time=t", "epoch=2000-01-01T00:00:00Z", "unit=1", "start=2000-01-01T00:00:00Z", "step=1"), "time= and start= are two ways to tell times: say one"),
    ((numbers, "table=gone", "report=gone", *FIELDS, "as=influx"), "as=influx takes start= and step=, or time=: Influx keeps one point of one time"),
    *(((numbers, "table=gone", "report=gone", *FIELDS, *INFLUX, f"measurement={name}"),
       f"measurement={name!r}: Influx takes no empty name, none with a backslash or a control character, and none that begins with # or _") for name in ("", "a\\b", "a\nb", "#a", "_a")),
    ((numbers, "table=gone", "report=gone", *FIELDS, *INFLUX, "measurement=\udce9"), "measurement= takes UTF-8"),
    *(((numbers, *WORDS, *FIELDS, *INFLUX, *tags), f"tag={tags[-1][4:]}: tag= takes KEY:VALUE, each KEY once, not time or number, and no field's name") for tags in (["tag=a"], ["tag=time:1"], ["tag=a:1", "tag=a:1"], ["tag=temp:1"])),
    ((numbers, *WORDS, *FIELDS, *INFLUX, "tag=a:"), "tag='': Influx takes no empty name, none with a backslash or a control character, and none that begins with # or _"),
    ((numbers, *WORDS, "tag=a:1"), "tag= and measurement= go with as=influx"),
    ((pack, "fields=long", "bits=16", "in=over"), "long: field larger than field limit (131072)"),
    ((numbers, "table=more", "report=streams", "apid=100"), "more has 5 packets, and by streams 4 of APID 100 were restored: the table has to be that of this APID's packets alone, which restore apid=100 gives"),
    ((numbers, *WORDS, "time=x", "epoch=2000-01-01T00:00:00Z", "unit=1"), "time=x: the table has no such field"),
    ((numbers, *WORDS, "fields=turned", "bits=16"), "the fields of turned are not those of table"),
    *(((numbers, *WORDS, "fields=empty", "bits=16", *words), "the fields of empty are not those of table") for words in ([], INFLUX, ["as=events"])),
    ((numbers, *WORDS, "unti=1"), "unti=1: did you mean unit=?"),
    ((numbers, "table=table"), "report= is missing"),
    ((pack, *FIELDS, "in=columns"), "columns: line 1, column 2: no field has the name u"),
    ((pack, *FIELDS, "in=twice"), "twice: line 1, column 2: temp stands twice"),
    ((pack, *FIELDS, "in=great"), "great: line 2, column 1: temp takes a number from -128 to 127, and not 128"),
    ((pack, *FIELDS, "in=less"), "less: line 2 has 1 columns, and the first line 2"),
    ((pack, *FIELDS, "in=empty"), "empty: line 1 names no field"),
    ((pack, "fields=many", "bits=16", "in=over"), "over: line 2, column 2: temp lies over a field before it, which says another bit"),
    ((pack, "fields=limits", "bits=16", "in=over"), "limits: row 2, limit,u,1,2: no row before it has the field u, or it has a limit already"),
    ((pack, "fields=missing", "bits=16", "in=over"), "missing: No such file or directory"),
]


class Numbers(LibraryTest):
    def setUp(self):
        self.files = ToolFolder(self.enterContext(tempfile.TemporaryDirectory(prefix="pocket-numbers-")))
        for name, text in [*TEXTS.items(), *WRONG]:
            self.files.put(name, text)

    def test_rounds(self):
        """Random fields, packets and losses."""
        draw = random.Random(20261130)
        for turn in range(ROUNDS):
            with self.subTest(turn):
                self.round(draw, draw.choice([8, 13, 64, 200]))

    def round(self, draw, bits):
        rows, limits = fields_of(draw, bits)
        count = draw.randrange(0, 40)
        spare = -bits % 8
        recording = b"".join((draw.getrandbits(bits) << spare).to_bytes(-(-bits // 8), "big") for _ in range(count))
        own, _ = table(recording, text_of(rows, limits), bits)
        self.files.put("fields", text_of(rows, limits))
        self.files.put("table", own)
        mask = covered(rows, bits)
        wanted = b"".join(bytes(one & other for one, other in zip(recording[at:at + len(mask)], mask)) for at in range(0, len(recording), len(mask)))
        self.assertEqual(self.files.run(pack, "fields=fields", f"bits={bits}", "in=table"), wanted)
        lost = [draw.random() < 0.2 for _ in range(2 * count)]
        places = [place for place, is_lost in enumerate(lost) if not is_lost][:count]
        count_all = places[-1] + 1 if places else 0
        gaps = [f"{place},{place},{draw.choice(['lost,0', 'gap,3', 'wrong,17'])}" for place in range(count_all) if place not in places]
        self.files.put("report", "first,last,cause,value\n" + "".join(gap + "\n" for gap in gaps) + f"end,{count_all},{len(places)},0\n")
        names, values = [row[3] for row in rows], [[int(cell) for cell in line.split(",")[1:]] for line in own.splitlines()[1:]]
        self.lines(names, places, values)
        self.events(bits, names, {name: (low, high) for name, low, high in limits}, list(zip(places, values)))
        self.points(bits, names, places, values)

    def lines(self, names, places, values):
        """The numbers, with their times."""
        head, *found = self.files.run(numbers, *WORDS, "start=2026-11-30T06:00:00Z", "step=0.25").decode().splitlines()
        self.assertEqual(len(set(head.split(","))), len(names) + (2 if values else 1))
        self.assertTrue(head.endswith(",".join(names)), head)
        begin = datetime.datetime(2026, 11, 30, 6)
        times = [(begin + datetime.timedelta(seconds=place / 4)).isoformat() for place in places]
        self.assertEqual(found, [",".join([str(place), (time[:-6] + time[-6:].rstrip("0") if "." in time else time) + "Z", *map(str, own)])
                                 for place, time, own in zip(places, times, values)])

    def events(self, bits, names, limits, packets):
        told = self.files.run(numbers, *WORDS, "fields=fields", f"bits={bits}", "as=events").decode().splitlines()[1:]
        cells = [line.split(",") for line in told]
        got = sorted(((c[0], c[1], int(c[3]), int(c[5]) if c[5] else None, int(c[7]), int(c[8]), int(c[9])) for c in cells), key=str)
        self.assertEqual(got, events(names, limits, packets))

    def points(self, bits, names, places, values):
        found = self.files.run(numbers, *WORDS, "fields=fields", f"bits={bits}", "as=influx", "measurement=hk of a,b", "tag=at:Kourou 1", "start=1970-01-01T00:00:00Z", "step=0.001")
        if "time" in names:
            self.assertEqual(found, "the field time has the name of Influx's own times")
            return
        number = next(own for own in ("number", "number_", "number__") if own not in names)
        self.assertEqual([point_of(line) for line in found.decode().splitlines()],
                         [("hk of a,b", {"at": "Kourou 1"}, dict(zip([number, *names], [place, *own])), place * 10**6) for place, own in zip(places, values)])

    def test_csv(self):
        self.assertEqual(self.files.run(numbers, *WORDS), b"number,t,temp\n1,1,-16\n2,2,40\n5,3,-12\n6,4,41\n")
        self.assertEqual(self.files.run(numbers, "table=table", "report=streams", "apid=100"), self.files.run(numbers, *WORDS))
        self.assertEqual(self.files.run(numbers, *WORDS, "time=t", "epoch=2000-01-01T00:00:00Z", "unit=0.001").splitlines()[1], b"1,2000-01-01T00:00:00.001Z,1,-16")
        self.assertEqual(self.files.run(pack, *FIELDS, "in=table"), bytes.fromhex("01F0 0228 03F4 0429"), "a field named t")

    def test_ends(self):
        """A parameter file with a mark of its byte order, and each end of lines, is taken as by the command `table`; another mark or letter is refused."""
        wanted = self.files.run(pack, *FIELDS, "in=table")
        for mark in ("", "\ufeff"):
            for end in ("\n", "\r\n", "\r"):
                own = mark + TEXTS["fields"].replace("\n", end)
                self.files.put("ends", own)
                self.assertEqual(self.files.run(pack, "fields=ends", "bits=16", "in=table"), wanted, own)
                told = command(*"table in=in fields=fields out=out report=report bits=16".split(), inputs={"in": wanted, "fields": own.encode()})
                self.assertEqual(told["out"].decode(), TEXTS["table"], own)
        for own in (b"\xff\xfe", "\ufeff\ufeff".encode(), b"#\xe9"):
            self.files.put("ends", own + TEXTS["fields"].encode())
            self.assertEqual(self.files.run(pack, "fields=ends", "bits=16", "in=table"), "ends is no text of ASCII letters")

    def test_influx(self):
        point = lambda *words: self.files.run(numbers, *words, *FIELDS, *INFLUX).splitlines()[0].decode()
        self.assertEqual(point(*WORDS), "pocket number=1i,t=1i,temp=-16i 2000000000")
        self.assertEqual(point("table=table", "report=streams", "apid=100", "tag=spacecraft:X"), "pocket,spacecraft=X,apid=100 number=1i,t=1i,temp=-16i 2000000000")
        self.files.put("wide", "field,0,64,u,t\nfield,0,64,s,temp\n")
        self.assertEqual(self.files.run(numbers, *WORDS, "fields=wide", "bits=64", *INFLUX).splitlines()[0], b"pocket number=1i,t=1u,temp=-16i 2000000000")
        self.assertEqual(point(*WORDS, "measurement=\u00e9t\u00e9"), "\u00e9t\u00e9 number=1i,t=1i,temp=-16i 2000000000")
        self.assertEqual(self.files.run(numbers, *WORDS, *FIELDS, *INFLUX[:2], "step=0"), "the packets 1 and 2 have one time, 1970-01-01T00:00:01Z: Influx would keep one of them alone")

    def test_influx_times(self):
        """The last times that Influx takes, before 1970 and after, and the next ones."""
        for begin, units, is_taken in (("2262-04-11T23:47:16Z", 854775806, True), ("2262-04-11T23:47:16Z", 854775807, False), ("2262-04-11T23:47:16Z", 854775808, False),
                                       ("1677-09-21T00:12:43Z", 145224194, True), ("1677-09-21T00:12:43Z", 145224193, False), ("1677-09-21T00:12:43Z", 0, False),
                                       ("9999-12-31T23:59:59Z", 2**64 - 1, False)):
            self.files.put("table", f"t,clock\n0,{units}\n")
            self.files.put("report", "first,last,cause,value\n0,6,lost,0\nend,8,1,0\n")
            self.files.put("fields", "field,0,64,u,clock\n")
            found = self.files.run(numbers, *WORDS, "fields=fields", "bits=64", "as=influx", "time=clock", f"epoch={begin}", "unit=0.000000001")
            time = int((datetime.datetime.strptime(begin, "%Y-%m-%dT%H:%M:%SZ") - datetime.datetime(1970, 1, 1)).total_seconds()) * 10**9 + units
            self.assertEqual(found, f"pocket number=7i,clock={units}u {time}\n".encode() if is_taken else
                             f"the packet 7 is {time} nanoseconds after 1970, which Influx doesn't take: 9223372036854775806 at most, before 1970 or after")

    def test_restart(self):
        """A restart on board may be where many are lost, which is told beside times."""
        self.assertEqual(self.files.run(numbers, "table=table", "report=restart", *INFLUX[1:]),
                         b"number,time,t,temp\n1,1970-01-01T00:00:02Z,1,-16\n2,1970-01-01T00:00:03Z,2,40\n19,1970-01-01T00:00:20Z,3,-12\n36,1970-01-01T00:00:37Z,4,41\n")
        self.assertEqual(self.files.told, "pocket numbers: restart: the packets 3 to 18 are lost, the first of 2 such losses: if the board restarted there, "
                         "times by start= and step= are wrong from 19 on; time= takes them from a field\n")
        self.files.run(numbers, "table=table", "report=restart")
        self.assertEqual(self.files.told, "")

    def test_least_restart(self):
        """A loss of 16 packets is told, and one of 15 isn't."""
        for lost in (1, 2, 15, 16, 17):
            self.files.put("one", f"first,last,cause,value\n2,{lost + 1},lost,0\nend,{lost + 4},4,0\n")
            self.files.run(numbers, "table=table", "report=one", *INFLUX[1:])
            self.assertEqual(self.files.told, f"pocket numbers: one: the packets 2 to {lost + 1} are lost: if the board restarted there, times by start= and step= are wrong from {lost + 2} on; "
                             "time= takes them from a field\n" if lost > 15 else "", lost)

    def test_seconds(self):
        """Seconds have up to nine places behind the point."""
        for step, wanted in (("0.000000001", "1970-01-01T00:00:01.000000001Z"), ("1.5", "1970-01-01T00:00:02.5Z"), ("1.123456789", "1970-01-01T00:00:02.123456789Z"), ("0.0000000001", None), (".5", None), ("1.", None)):
            found = self.files.run(numbers, *WORDS, *INFLUX[1:2], f"step={step}")
            self.assertEqual(found.splitlines()[1].split(b",")[1].decode() if wanted else found, wanted or f"step={step}: step= takes seconds, with up to nine places behind the point")

    def test_passed_over(self):
        """`pack` passes over columns t and number that are no fields, as those of a table of `numbers`."""
        self.files.put("own", "field,0,8,u,mode\nfield,8,8,s,temp\n")
        self.files.put("over", "number,t,temp,mode\n7,0,-16,1\n9,1,40,2\n")
        self.assertEqual(self.files.run(pack, "fields=own", "bits=16", "in=over"), bytes.fromhex("01F0 0228"))

    def test_events(self):
        self.assertEqual(self.files.run(numbers, *WORDS, *FIELDS, "as=events").splitlines()[1:], [b"temp,low,-10,1,,2,,1,-16,1,", b"temp,low,-10,5,,6,,1,-12,5,", b"temp,high,40,6,,,,1,41,6,"])
        self.files.put("unlimited", "field,0,8,u,t\nfield,8,8,s,temp\n")
        found = self.files.run(numbers, *WORDS, "fields=unlimited", "bits=16", "as=events").count(b"\n")
        self.assertEqual((found, self.files.told), (1, "pocket numbers: unlimited has no limit, so there are no events\n"))

    def test_refused(self):
        for call, wanted in REFUSED:
            with self.subTest(wanted, words=call[1:]):
                self.assertEqual(self.files.run(*call), wanted)
