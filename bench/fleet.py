#!/usr/bin/env python3
"""fleet.py POCKET [SPACECRAFT PACKETS]: the table of many spacecraft (library/examples/fleet) for docs/BENCHMARK.md: packets that are fed
first, as a burst of files and as live ones, and then judged by 1, 2 and 4 workers. It takes redis-server, the system's Python with
python3-redis, and POCKET_LIBRARY."""

import itertools
import json
import os
import subprocess
import sys
import tempfile
import time

sys.path.insert(0, os.path.join(os.path.dirname(os.path.dirname(os.path.abspath(__file__))), "tests"))
import measure
from fleet_parts import APIDS, FLEET, Engine, Fleet, begun, ran
from packets import packets_of

sys.path.insert(0, FLEET)
import feed


def used(engine):
    """The seconds that the engine took of a processor, and the bytes that it has."""
    told = engine.client.info()
    return told["used_cpu_user"] + told["used_cpu_sys"], told["used_memory"]


def taken(processes):
    """The seconds of processors that processes took until they ended, which is waited for."""
    spent = [os.wait4(process.pid, 0)[2] for process in processes]
    return sum(one.ru_utime + one.ru_stime for one in spent)


def fed_whole(fleet, engine):
    """Feeds all as files. Gives the seconds of a processor that it took."""
    words = [f"{name}={fleet.at(name)}.come" for name in fleet.names]
    return taken([begun("feed.py", engine.place, fleet.at("fleet.json"), *words, "end", stderr=subprocess.DEVNULL)])


def fed_live(fleet, engine):
    """Feeds all packet by packet, one of each spacecraft in turn."""
    client, begin, streams = feed.opened(engine.place), time.process_time(), json.dumps({str(apid): bits for apid, bits in APIDS.items()})
    places = dict.fromkeys(fleet.names, 0)
    for turn in itertools.zip_longest(*(packets_of(store) for store in fleet.stores.values())):
        for name, packet in zip(fleet.names, turn):
            if packet:
                feed.put(client, name, streams, "live", places[name], packet, 1)
                places[name] += len(packet)
    client.set(feed.END, 1)
    return time.process_time() - begin


def judged(fleet, engine, workers, fed_by):
    """What it takes with so many workers."""
    engine.client.flushall()
    before, empty = used(engine)
    spent_first = fed_by(fleet, engine)
    fed, full = used(engine)
    start = time.monotonic()
    spent = taken([begun("work.py", engine.place) for _ in range(workers)])
    seconds = time.monotonic() - start
    after, found = used(engine)
    assert ran("read.py", engine.place, fleet.folder)[0] == 0 and not fleet.differing(fleet.folder)
    return spent_first, fed - before, full - empty, seconds, spent, after - fed, found - empty, used(engine)[1] - empty


HEADS = ["Fed as", "Workers", "Packets a second", "Microseconds of a processor for a packet: feeder", "worker", "engine",
         "Bytes of the engine for a spacecraft", "for a packet to judge", "for a packet to read"]


def rows(fleet, engine, way, fed_by):
    """The rows of packets that are fed in one way."""
    count = sum(len(list(packets_of(store))) for store in fleet.stores.values())
    for workers in (1, 2, 4):
        first, fed, full, seconds, spent, worked, found, states = judged(fleet, engine, workers, fed_by)
        yield way, workers, f"{count / seconds:,.0f}", *(f"{one / count * 1e6:.1f}" for one in (first, spent, fed + worked)), \
            f"{states / len(fleet.names):,.0f}", f"{full / count:,.0f}", f"{(found - states) / count:,.0f}"


def each(folder, engine, program, number, packets):
    """The rows of both ways."""
    for way, fed_by, many in (("files", fed_whole, packets), ("live packets", fed_live, packets // 10)):
        fleet = Fleet(program, folder, number, many)
        fleet.grow(1, 1)
        yield from rows(fleet, engine, way, fed_by)


def main():
    number, packets = map(int, sys.argv[2:] or ["1000", "100"])
    with tempfile.TemporaryDirectory(prefix="pocket-fleet-") as folder:
        engine = Engine(folder)
        engine.start()
        print(f"Measured by `bench/fleet.py` on {time.strftime('%Y-%m-%d')}: {os.cpu_count()} processors, load {os.getloadavg()[0]:.1f}.")
        try:
            measure.show_table("Many spacecraft", HEADS, each(folder, engine, os.path.abspath(sys.argv[1]), number, packets))
        finally:
            engine.kill()


if __name__ == "__main__":
    main()
