"""Makes what is measured, from seeds: recordings, stores whose packets come late or on many APIDs, and side texts."""

import collections
import itertools
import os
import random
import sys

sys.path.insert(0, os.path.join(os.path.dirname(os.path.dirname(os.path.abspath(__file__))), "tests"))
from packets import packets_of

LAST = 2**32 - 1

# A new mask each 20 packets, the mask each 50, the whole content each 100.
SCHEDULE = f"20,{LAST},20,p\n50,{LAST},50,f\n100,{LAST},100,r\n"
# Each 101st packet comes twice. Each 53rd is lost, and three in a row out of each 1,000.
SCRIPT = f"repeat,101,{LAST},101,1\ndrop,53,{LAST},53\n" + "".join(f"drop,{first},{LAST},1000\n" for first in (777, 778, 779))

# A kind of recording: how its bits move, how many packets are timed and how many counted, and its schedule.
Kind = collections.namedtuple("Kind", "name bits moves timed counted schedule")
KINDS = [
    Kind("quiet", 1024, "quiet", 400_000, 2000, ""),
    Kind("quiet, with a schedule", 1024, "quiet", 400_000, 2000, SCHEDULE),
    Kind("half of the bits noisy", 1024, "half", 100_000, 1000, ""),
    Kind("all bits noisy", 1024, "noisy", 50_000, 1000, ""),
    Kind("long, quiet, its beginning", 49_152, "quiet", 300, 150, ""),
    Kind("long, quiet", 49_152, "quiet", 8_000, 1500, ""),
    Kind("long, all bits noisy", 49_152, "noisy", 2_000, 30, ""),
    Kind("short, quiet", 13, "quiet", 1_000_000, 10_000, ""),
]


def moved(now, place, bits, moves, draw, half):
    """The bits of the next packet, whose moves are not quiet."""
    if moves in ("calm", "turned"):
        return now ^ ((1 << bits) - 1 if moves == "turned" else (place % 16 == 1) << bits - 8)
    turned = draw.getrandbits(bits) & draw.getrandbits(bits) & draw.getrandbits(bits)
    return now ^ (turned & half if moves == "half" else turned)


def inputs(bits, packets, moves, seed):
    """The packets of a recording, as numbers. quiet: a counter of 16 bits moves in every fourth packet, and in one of ten one of 32
    bits turns; half: each bit of a random half turns with the chance 1/8; noisy: each bit does; calm: one bit turns in each sixteenth packet;
    turned: all bits turn."""
    draw = random.Random(seed)
    wide, now = min(16, bits), draw.getrandbits(bits)
    half, turning = draw.getrandbits(bits), [draw.randrange(bits) for _ in range(32)]
    rest = (1 << (bits - wide)) - 1
    for place in range(packets):
        if moves != "quiet":
            now = moved(now, place, bits, moves, draw, half)
        else:
            if place % 4 == 0:
                now = now & rest | (place // 4 % (1 << wide)) << (bits - wide)
            if draw.random() < 0.1:
                now ^= 1 << draw.choice(turning)
        yield now


def record(path, bits, packets, moves="quiet", seed=None):
    """Writes a recording; a seed that is not given is the number of bits."""
    size = (bits + 7) // 8
    with open(path, "wb", buffering=1 << 20) as out:
        for now in inputs(bits, packets, moves, bits if seed is None else seed):
            out.write((now << 8 * size - bits).to_bytes(size, "big"))


def read(path):
    with open(path, "rb") as file:
        return file.read()


def write(path, text):
    with open(path, "w", encoding="ascii") as out:
        out.write(text)


def write_late(path, store, window):
    """Writes a store whose packets come late: each window + 1 of them in the other direction."""
    whole = list(packets_of(store))
    with open(path, "wb") as out:
        for first in range(0, len(whole), window + 1):
            out.writelines(reversed(whole[first:first + window + 1]))


def write_joined(path, store, streams, packets):
    """Writes a store of so many packets, in which each of another comes once on each APID, 0 and so on."""
    with open(path, "wb", buffering=1 << 20) as out:
        for packet, apid in itertools.islice(itertools.product(packets_of(store), range(streams)), packets):
            out.write((packet[0] << 8 & 0xF800 | apid).to_bytes(2, "big") + packet[2:])


def streams_text(streams, bits):
    """The side text of such a store."""
    return "".join(f"{apid},{bits}\n" for apid in range(streams))


def fields_text(count, bits):
    """The side text of so many fields of packets of so many bits, of several widths; two of them have a limit."""
    widths = [1, 3, 8, 12, 16, 32, 64, 5]
    step = (bits - 64) // count
    rows = [f"field,{step * place},{widths[place % 8]},{'us'[place % 2]},n{place}" for place in range(count)]
    limits = [f"limit,n{place},{low},{high}" for place, low, high in [(4, -1, 30_000), (9, -2, 3)] if place < count]
    return "\n".join(rows + limits) + "\n"


def step_rows(row, last, most=2**20):
    """A side text of at most so many bytes: a row for each step from 1 on with each remainder, up to a last packet."""
    rows, room = [], most
    for step in itertools.count(1):
        for first in range(step):
            rows.append(row.format(first=first, last=last, step=step))
            room -= len(rows[-1])
            if room < 0:
                return "".join(rows[:-1])
