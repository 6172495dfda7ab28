#!/usr/bin/env python3
"""feed.py HOST:PORT STREAMS [SPACECRAFT=FILE ..] [end]: puts the Space Packets of files, or of a pipe (-), into Redis. STREAMS is a JSON file
with the bits of each APID of each spacecraft, {"X1": {"100": 64, "101": 1000}}. A file is fed from where an earlier run left it, so one that
grows, or whose run was killed, is fed on by the same command. After `end` workers and readers end when all is done."""

import json
import os
import sys
import time
import zlib

import redis
from pocket import PocketError, Receivers, tool

PARTITIONS, PIECE = 16, 4096  # How many are made at first; about how many bytes an entry of one has, or one packet.
LEASES, GROUP, NAMES, END = "fleet:leases", "workers", "fleet:spacecraft", "fleet:end"
MAKE = """if redis.call('EXISTS', KEYS[1]) == 0 then
    redis.call('XGROUP', 'CREATE', KEYS[1], ARGV[1], '0', 'MKSTREAM')
    for one = 1, ARGV[2] do redis.call('XADD', KEYS[1], one .. '-0', 'partition', one - 1) end end"""


def opened(place):
    """The engine, with its partitions: each has an entry in one stream, which is pending at the worker that judges it."""
    engine = redis.Redis(place.rpartition(":")[0], int(place.rpartition(":")[2]), socket_timeout=30)
    engine.eval(MAKE, 1, LEASES, GROUP, PARTITIONS)
    return engine


def waiting(engine):
    """Whether the end is said, and the partitions with packets that are not judged, both at one time."""
    with engine.pipeline() as pipe:
        for partition in range(engine.xlen(LEASES)):
            pipe.xlen(f"fleet:packets:{partition}")
        *numbers, is_ended = pipe.exists(END).execute()
    return is_ended, [partition for partition, number in enumerate(numbers) if number]


def run(main):
    """Runs a program of these three. What is wrong is told in a line."""
    try:
        main()
    except (PocketError, redis.RedisError, OSError, ValueError, KeyboardInterrupt) as wrong:
        sys.exit(f"{os.path.basename(sys.argv[0])}: {str(wrong) or 'interrupted'}")


def put(engine, craft, streams, source, at, packets, number):
    """Puts packets into the partition of their spacecraft, once: how far the source is fed changes with them."""
    def change(pipe):
        known, fed = pipe.hmget(f"fleet:fed:{craft}", "streams", source)
        partition = zlib.crc32(craft.encode()) % pipe.xlen(LEASES)
        pipe.multi()
        if known not in (None, streams.encode()) or int(fed or 0) not in (at, at + len(packets)):
            raise PocketError("another feeds it too, or its streams are others than before")
        if int(fed or 0) == at:
            pipe.xadd(f"fleet:packets:{partition}", {"craft": craft, "packets": packets, "number": number})
            pipe.hset(f"fleet:fed:{craft}", mapping={"streams": streams, source: at + len(packets)})
            pipe.hincrby(f"fleet:fed:{craft}", "packets", number).sadd(NAMES, craft).delete(END)

    while True:
        try:
            return engine.transaction(change, f"fleet:fed:{craft}")
        except (redis.ConnectionError, redis.TimeoutError):
            time.sleep(0.2)


def feed(engine, craft, streams, name):
    """Feeds what a file has from where it was left, or all of a pipe, whole packets at a time."""
    Receivers({int(apid): bits for apid, bits in streams.items()}).close()
    source, reader, left = f"pipe {os.urandom(9).hex()}" if name == "-" else f"file {os.path.abspath(name)}", Receivers({}), b""
    with open(0 if name == "-" else name, "rb", buffering=0, closefd=name != "-") as file:
        at = reader.bytes = int(engine.hget(f"fleet:fed:{craft}", source) or 0)
        file.seek(at) if at else None
        while piece := file.read(PIECE):
            left, reader.unknown, reader.idle = left + piece, 0, 0
            try:
                list(reader.feed(piece))
            finally:
                packets, left = left[:reader.bytes - at], left[reader.bytes - at:]
                if packets:
                    put(engine, craft, json.dumps(streams), source, at, packets, reader.unknown + reader.idle)
                at = reader.bytes
    if left:
        print(f"{craft}={name}: the packet at byte {at} is not whole yet", file=sys.stderr)


def main():
    if len(sys.argv) < 3 or not all("=" in word or word == "end" for word in sys.argv[3:]):
        sys.exit(__doc__)
    engine, streams = opened(sys.argv[1]), json.loads(tool.contents(sys.argv[2]))
    for craft, said, name in (word.partition("=") for word in sys.argv[3:]):
        try:
            if said and ("/" in craft or craft not in streams):
                raise PocketError(f"{sys.argv[2]} has no streams of it" if "/" not in craft else "a spacecraft is named as a file is")
            feed(engine, craft, streams[craft], name) if said else engine.set(END, 1)
        except (PocketError, AttributeError, TypeError) as wrong:
            raise PocketError(f"{craft}={name}: {wrong}") from None


if __name__ == "__main__":
    run(main)
