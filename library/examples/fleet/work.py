#!/usr/bin/env python3
"""work.py HOST:PORT [SECONDS]: judges what is fed, beside any number of others, on any machines, and may be killed at any time. It ends
when all is judged after `feed.py .. end`. A worker takes a partition for a batch, and others leave it alone for ten seconds, or so many.
State, findings, contents and position change in one transaction, which fails if another worker's was first."""

import contextlib
import json
import os
import random
import sys
import time

import redis
from feed import GROUP, LEASES, opened, run, waiting
from pocket import Kind, Receivers, SpacePacket, packed


def judged(streams, state, entries):
    """What becomes of a spacecraft's state by entries, and what is found: rows and contents as `multi` writes them, with their places."""
    was = {name: int(state.get(name.encode(), 0)) for name in ("report_at", "store_at", "shape", "packets")}
    report, store, numbers = "" if was["report_at"] else "apid,first,last,cause,value\n", b"", {}
    with Receivers({int(apid): bits for apid, bits in json.loads(streams).items()}) as receivers:
        for apid in receivers:
            if str(apid).encode() in state:
                receivers[apid].load(state[str(apid).encode()])
        for apid, one in (one for entry in entries for one in receivers.feed(entry[b"packets"])):
            if one.lost:
                report += f"{apid},{one.lost[0]},{one.lost[-1]},lost,0\n"
            if one.content is not None:
                store += packed(SpacePacket(apid, one.number % 16384, one.content))
                numbers.setdefault(apid, []).append(one.number)
            elif one.kind != Kind.REPEAT:
                report += f"{apid},{one.number},{one.number},{one.kind.name.lower()},{one.value}\n"
        after = {str(apid): receivers[apid].save() for apid in receivers}
        counts = {apid: receivers[apid].counts() for apid in receivers}
    shape, packets = was["shape"] + receivers.misshapen, was["packets"] + sum(int(entry[b"number"]) for entry in entries)
    end = "".join(f"{apid},end,{one.packets},{one.written},{one.repeats}\n" for apid, one in counts.items()) + f"shape,{shape}\n"
    after.update(report_at=was["report_at"] + len(report), store_at=was["store_at"] + len(store), shape=shape, packets=packets, end=end)
    return after, {**was, "report": report, "store": store, "numbers": json.dumps(numbers)}


def turn(engine, partition):
    """Judges the next batch of a partition. `WatchError` says that nothing of it was kept, as another worker's was first."""
    packets, position, pieces = f"fleet:packets:{partition}", f"fleet:position:{partition}", {}
    with engine.pipeline() as pipe, engine.pipeline(transaction=False) as asked:
        pipe.watch(position)
        entries = [one for _, own in pipe.xread({packets: pipe.get(position) or "0"}, count=100) for one in own]
        for _, entry in entries:
            pieces.setdefault(entry[b"craft"].decode(), []).append(entry)
        for craft in pieces:
            asked.hget(f"fleet:fed:{craft}", "streams").hgetall(f"fleet:state:{craft}")
        pipe.multi()
        for craft, streams, state in zip(pieces, *[iter(asked.execute())] * 2):
            after, found = judged(streams, state, pieces[craft])
            pipe.hset(f"fleet:state:{craft}", mapping=after).xadd(f"fleet:found:{partition}", {"craft": craft, **found})
        if entries:
            pipe.set(position, entries[-1][0]).xdel(packets, *(one for one, _ in entries))
        pipe.xack(LEASES, GROUP, f"{partition + 1}-0").execute()


def main():
    if len(sys.argv) not in (2, 3):
        sys.exit(__doc__)
    engine, name, lease, is_done = opened(sys.argv[1]), f"{os.uname().nodename} {os.getpid()}", int(1000 * float([*sys.argv, 10][2])), False
    while not is_done:
        is_ended, full = waiting(engine)
        own = (one for one in random.sample(full, len(full)) if engine.xclaim(LEASES, GROUP, name, lease, [f"{one + 1}-0"], force=True, justid=True))
        is_done, partition = is_ended and not full, next(own, None)
        with contextlib.suppress(redis.WatchError):
            turn(engine, partition) if partition is not None else time.sleep(0 if is_done else 0.05)


if __name__ == "__main__":
    run(main)
