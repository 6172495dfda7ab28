#!/usr/bin/env python3
"""read.py HOST:PORT: how many packets of each spacecraft are fed, judged, and not judged yet.
read.py HOST:PORT FOLDER [fields=F apid=N [measurement=M] and the words for times of `python3 -m pocket numbers`]: writes what is found into
SPACECRAFT.store and .report of a folder, as `multi` does, and takes it out of the engine, one reader at a time, until `feed.py .. end`. With
fields it prints the points of an APID too, as `numbers` does, with the spacecraft as a tag. Points that Influx doesn't take, as those of a
clock that stands still, are left out with those of their batch, which is told on standard error."""

import io
import json
import os
import sys
import time

from feed import LEASES, NAMES, opened, run, waiting
from pocket import PocketError, fields, numbers, run as command, space_packets, tool


def lag(engine):
    """Prints a row for each spacecraft, the one that waits for most first, and the sum."""
    names = (one.decode() for one in engine.smembers(NAMES))
    rows = [(name, *(int(engine.hget(f"fleet:{kind}:{name}", "packets") or 0) for kind in ("fed", "state"))) for name in names]
    rows = sorted(rows, key=lambda row: (row[2] - row[1], row[0])) + [("all", *(sum(row[at] for row in rows) for at in (1, 2)))]
    print("spacecraft,fed,judged,lag", *(f"{name},{fed},{judged},{fed - judged}" for name, fed, judged in rows), sep="\n")


def put(name, at, content):
    """Puts bytes at a place of a file, to its end: what was put behind it and is still in the engine comes again."""
    with open(name, "ab") as file:
        if file.tell() < at:
            raise PocketError(f"{name} has less than the {at} bytes that were written: it isn't the file of before")
        file.truncate(at)
        file.write(content)


def points(engine, entry, said, clock):
    """Prints the points of an entry: its values are those of the command `table`."""
    craft, apid = entry[b"craft"].decode(), said["apid"]
    bits, own = json.loads(engine.hget(f"fleet:fed:{craft}", "streams")).get(apid), json.loads(entry[b"numbers"]).get(apid)
    if own:
        given = {"in": b"".join(one.data for one in space_packets(io.BytesIO(entry[b"store"]), int(apid))), "fields": tool.contents(said["fields"])}
        table = command("table", "in=in", "fields=fields", "out=out", "report=report", f"bits={bits}", inputs=given)["out"].decode().splitlines()
        names, values = table[0].split(",")[1:], [[int(one) for one in line.split(",")[1:]] for line in table[1:]]
        series = numbers.series(said, [f"spacecraft:{craft}"], names)
        lines, own_fields = clock.lines(names, own, values), fields.fields_of(said["fields"], bits)
        try:
            print(*numbers.as_influx(names, lines, own_fields, series), sep="\n", flush=True)
        except tool.ToolError as wrong:
            # (a clock that stands still: its points are none, and the reader goes on)
            print(f"{craft}: {wrong}", file=sys.stderr, flush=True)


def write(engine, folder, found, said, clock):
    """Writes what is found of a partition, and then takes it out of the engine. Gives how much it was."""
    entries = engine.xrange(found, count=500)
    for _, entry in entries:
        for kind in ("report", "store"):
            put(os.path.join(folder, f"{entry[b'craft'].decode()}.{kind}"), int(entry[f"{kind}_at".encode()]), entry[kind.encode()])
        points(engine, entry, said, clock) if clock else None
    if entries:
        os.sync()
        engine.xdel(found, *(one for one, _ in entries))
    return len(entries)


def main():
    if len(sys.argv) < 3:
        return lag(opened(sys.argv[1])) if len(sys.argv) == 2 else sys.exit(__doc__)
    keys = ("fields", "apid", "start", "step", "time", "epoch", "unit", "measurement")
    engine, folder, said = opened(sys.argv[1]), sys.argv[2], tool.given(sys.argv[3:], keys, keys[:2] if sys.argv[3:] else [])
    clock, is_done = numbers.Clock(said) if said else None, False
    while not is_done:
        is_ended, full = waiting(engine)
        found = sum(write(engine, folder, f"fleet:found:{one}", said, clock) for one in range(engine.xlen(LEASES)))
        is_done = is_ended and not full and not found
        time.sleep(0 if found or is_done else 0.2)
    for craft in (one.decode() for one in engine.smembers(NAMES)):
        at, end = engine.hmget(f"fleet:state:{craft}", "report_at", "end")
        put(os.path.join(folder, craft + ".report"), int(at), end)


if __name__ == "__main__":
    run(main)
