#!/usr/bin/env python3
"""Measures the program, and prints the tables of docs/BENCHMARK.md, ready to paste: python3 bench/run.py PROGRAM > tables.md

It asserts nothing. Processor time is the program's own and the system's for it together, the least of some runs; memory is the greatest
that was resident; instructions are counted by valgrind (without it these tables are left out), as what one packet more costs. All inputs
are made from seeds in a temporary folder of some 600 MB, which is removed. On a quiet machine it takes under ten minutes; --quick takes a
small part of all, and its times mean little. --beside names a program in plain C, to count it too.
"""

import argparse
import os
import shutil
import sys
import tempfile

import measure
import recordings
from recordings import KINDS

STREAMS, WINDOW, FIELDS = 8, 8, 40


class Bench:
    """The program, and a folder in which all files of a run lie."""

    def __init__(self, given, folder):
        self.program, self.folder, self.quick = os.path.abspath(given.program), folder, given.quick
        self.rounds, self.ref = 1 if given.quick else given.rounds, given.beside and os.path.abspath(given.beside)

    def at(self, name):
        return os.path.join(self.folder, name)

    def size(self, name):
        return os.path.getsize(self.at(name))

    def words(self, verb, **keys):
        """The words of a command; a value that begins with @ is a name in the folder."""
        named = (f"{key}={self.at(str(value)[1:]) if str(value).startswith('@') else value}" for key, value in keys.items())
        return [self.program, verb, *named]

    def compress(self, bits, schedule="", apid=100):
        """The words of compress; its schedule is written."""
        recordings.write(self.at("plan"), schedule)
        plan = {"plan": "@plan"} if schedule else {}
        return self.words("compress", **{"in": "@rec"}, out="@store", bits=bits, apid=apid, robust=2, **plan)

    def restore(self, bits):
        return self.words("restore", **{"in": "@store"}, out="@restored", report="@report", bits=bits, apid=100)

    def store(self, packets, apid=100):
        """Makes a quiet recording of packets of 1,024 bits and its store."""
        recordings.record(self.at("rec"), 1024, packets)
        measure.used(self.compress(1024, apid=apid))


def prepared(bench, packets):
    """Makes the inputs of all verbs, of so many quiet packets of 1,024 bits, and gives the words of each."""
    bench.store((packets + STREAMS - 1) // STREAMS, apid=0)
    recordings.write_joined(bench.at("joined"), recordings.read(bench.at("store")), STREAMS, packets)
    bench.store(packets)
    recordings.write_late(bench.at("late"), recordings.read(bench.at("store")), WINDOW)
    for name, text in (("streams", recordings.streams_text(STREAMS, 1024)), ("fields", recordings.fields_text(FIELDS, 1024)),
                       ("script", recordings.SCRIPT), ("plan", recordings.SCHEDULE)):
        recordings.write(bench.at(name), text)
    read = lambda name: {"in": f"@{name}"}
    of = {"bits": 1024, "apid": 100}
    return {
        "compress": bench.words("compress", **read("rec"), out="@copy", robust=2, **of),
        "play": bench.words("play", **read("store"), out="@played", report="@report", apid=100, script="@script"),
        "restore": bench.words("restore", **read("store"), out="@copy", report="@report", **of),
        "show": bench.words("show", **read("store"), out="@copy", **of),
        f"late, window={WINDOW}": bench.words("late", **read("late"), out="@copy", report="@report", window=WINDOW, **of),
        f"multi, {STREAMS} streams": bench.words("multi", **read("joined"), out="@copy", report="@report", streams="@streams"),
        f"table, {FIELDS} fields": bench.words("table", **read("rec"), out="@copy", report="@report", fields="@fields", bits=1024),
        "trial": bench.words("trial", seed=1, packets=min(packets, 10_000), bits=1024, robust=2, out="@copy"),
        "forecast": bench.words("forecast", out="@copy", packets=packets, robust=2, plan="@plan", script="@script"),
    }


def fewer(bench, packets):
    """How many packets are timed."""
    return max(packets // 20, 100) if bench.quick else packets


def packed(bench, name, size):
    """The size of the recording that another program has packed, in parts of a hundred."""
    if not shutil.which(name):
        return "-"
    measure.used([name, "-1", "-c", bench.at("rec")], bench.at(name))
    return f"{100 * bench.size(name) / size:.1f} %"


def timed_kinds(bench):
    """The rows of the kinds' times and sizes."""
    for kind in KINDS:
        packets = fewer(bench, kind.timed)
        recordings.record(bench.at("rec"), kind.bits, packets, kind.moves)
        size, rates = bench.size("rec"), []
        for words in (bench.compress(kind.bits, kind.schedule), bench.restore(kind.bits)):
            took = measure.best(words, bench.rounds)
            rates += [round(packets / took.seconds), size / took.seconds / 1e6]
        stored = f"{100 * bench.size('store') / size:.1f} %"
        yield kind.name, kind.bits, packets, *rates, stored, packed(bench, "gzip", size), packed(bench, "zstd", size)


def counted_beside(bench, kind):
    """The instructions of compress and restore of the program in plain C; what it writes has to be the same."""
    at, rows = bench.at, [bench.at("plan")] if kind.schedule else []
    words = [[bench.ref, "compress", at("rec"), at("ref.store"), str(kind.bits), "100", "2", *rows],
             [bench.ref, "restore", at("ref.store"), at("ref.restored"), at("ref.report"), str(kind.bits), "100"]]
    counts = [measure.instructions(those) for those in words]
    if any(recordings.read(at(name)) != recordings.read(at(f"ref.{name}")) for name in ("store", "restored", "report")):
        sys.exit(f"{kind.name}: {bench.ref} writes something else")
    return counts


def counted_kinds(bench):
    """The rows of the kinds' instructions."""
    for kind in KINDS:
        packets, own, plain = kind.counted // (10 if bench.quick else 1), [], []
        for turn in (1, 2):
            recordings.record(bench.at("rec"), kind.bits, turn * packets, kind.moves)
            own.append([measure.instructions(words) for words in (bench.compress(kind.bits, kind.schedule), bench.restore(kind.bits))])
            plain.append(counted_beside(bench, kind) if bench.ref else own[-1])
        row = []
        for once, twice, once_plain, twice_plain in zip(*own, *plain):
            cost, beside = (twice - once) / packets, (twice_plain - once_plain) / packets
            row += [round(cost), cost / beside] if bench.ref else [round(cost)]
        yield kind.name, kind.bits, *row


def verbs(bench):
    """The rows of the nine verbs: times of many packets, instructions of one more, and memory."""
    counted = 200 if bench.quick else 2000
    counts = []
    for packets in (counted, 2 * counted) if measure.can_count() else ():
        counts.append([measure.instructions(words) for words in prepared(bench, packets).values()])
    timed = fewer(bench, 100_000)
    for place, (name, words) in enumerate(prepared(bench, timed).items()):
        packets = min(timed, 10_000) if name == "trial" else timed
        took = measure.best(words, bench.rounds)
        more = round((counts[1][place] - counts[0][place]) / counted) if counts else "-"
        yield name, round(packets / took.seconds), more, took.memory


def largest(bench):
    """The rows of the largest trial, and of the dearest forecasts that were found: texts of 1 MiB over all of 1,000,000 packets."""
    last, rounds = 999_999, 1 if bench.quick else 2
    trial = bench.words("trial", seed=1, packets=10_000, bits=4096, robust=2, out="@copy")
    foreseen = bench.words("forecast", out="@copy", packets=last + 1, robust=2, plan="@plan", script="@script")
    yield "`trial` of 10,000 packets of 4,096 bits", "-", *measure.best(trial, bench.rounds)
    texts = [(f"each step and remainder, rows `{flags}`", f"{{first}},{{last}},{{step}},{flags}\n", "drop,{first},{last},{step}\n")
             for flags in ("r", "fr")]
    texts += [("the step 1, rows `r`", "{first},{last},1,r\n", "drop,{first},{last},1\n")]
    for name, schedule, script in texts:
        rows = []
        for side, row in (("plan", schedule), ("script", script)):
            text = recordings.step_rows(row, last, 2**16 if bench.quick else 2**20)
            recordings.write(bench.at(side), text)
            rows.append(text.count("\n"))
        yield f"`forecast`, {name}", f"{rows[0]:,} and {rows[1]:,}", *measure.best(foreseen, rounds)


def tables(bench):
    """The titles, heads and rows of all tables; rows are measured as they are asked for."""
    rates = ["`compress`: packets a second", "MB", "`restore`: packets a second", "MB", "Store", "`gzip -1`", "`zstd -1`"]
    yield "Speed and size", ["Recording", "Bits", "Packets", *rates], timed_kinds(bench)
    heads = ["Packets a second", "Instructions for a packet", "KB"]
    yield "The nine verbs", ["Verb", *heads], verbs(bench)
    if measure.can_count():
        heads = ["`compress`", "of those in C", "`restore`", "of those in C"] if bench.ref else ["`compress`", "`restore`"]
        yield "Instructions for a packet", ["Recording", "Bits", *heads], counted_kinds(bench)
    yield "The largest trial and forecasts", ["Command", "Rows", "Seconds", "KB"], largest(bench)


def show(bench, only):
    before = measure.load()
    for title, heads, rows in tables(bench):
        if only in title:
            measure.show_table(title, heads, rows)
    print(f"\nA command that does nothing takes {measure.used(['true']).memory:,} KB.")
    print(measure.told_by("bench/run.py", f", the least of {bench.rounds} rounds{', --quick' if bench.quick else ''}", before))


def main():
    words = argparse.ArgumentParser(description=__doc__, formatter_class=argparse.RawDescriptionHelpFormatter)
    words.add_argument("program", help="the built program, as crates/pocket/out/pocket")
    words.add_argument("--quick", action="store_true", help="a small part of all, to see that it runs")
    words.add_argument("--only", default="", help="the tables alone whose title has this")
    words.add_argument("--rounds", type=int, default=5, help="how often a command is timed; the least is shown")
    words.add_argument("--beside", help="a program of plain C to count beside, of the words compress IN OUT BITS APID R [SCHEDULE] and "
                       "restore IN OUT REPORT BITS APID")
    words.add_argument("--folder", help="where the files are made, 600 MB; they are removed at the end")
    given = words.parse_args()
    measure.adopt_orphans()
    with tempfile.TemporaryDirectory(dir=given.folder) as folder:
        show(Bench(given, folder), given.only)


if __name__ == "__main__":
    main()
