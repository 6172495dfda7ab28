"""The picture of the bits of one packet."""

import re

from svg import Wrong, picture, words


def read_parts(given):
    """The parts of a packet, each with its name and its bits."""
    parts = []
    for number, word in enumerate(given, 1):
        name, _, bits = word.partition("=")
        if not name or not re.fullmatch("[01]+", bits):
            raise Wrong(f"part {number} is wrong: it is no NAME=BITS: {word[:60]!r}")
        parts.append((name, bits))
    if not parts:
        raise Wrong("no parts")
    return parts


def draw_packet(given):
    """The bits in rows of four bytes, the parts numbered and in two shades in turn, and a line for each part."""
    parts = read_parts(given)
    count = sum(len(bits) for _, bits in parts)
    if count % 8:
        parts.append(("padding", "0" * (-count % 8)))
    marked = [(bit, number) for number, (_, bits) in enumerate(parts, 1) for bit in bits]
    drawn = []
    for place, (bit, number) in enumerate(marked):
        x, y = 14 + 24 * (place % 32), 56 + 76 * (place // 32)
        fill = "#e4e4e4" if parts[number - 1][0] == "padding" else ("#a6d3f2", "#fff3c4")[number % 2]
        if place % 8 == 0:
            byte = int("".join(bit for bit, _ in marked[place:place + 8]), 2)
            drawn.append(words(x + 2, y - 6, str(place), 10, fill="#444444") + words(x + 96, y - 6, f"{byte:02X}", 14, "middle", weight="bold"))
        drawn.append(f"<rect x='{x}' y='{y}' width='24' height='28' fill='{fill}' stroke='#444444' stroke-width='1'/>")
        drawn.append(words(x + 12, y + 19, bit, 14, "middle"))
    place = 0
    for number, (_, bits) in enumerate(parts, 1):
        for first in sorted({place} | {start for start in range(place, place + len(bits)) if start % 32 == 0}):
            last = min(place + len(bits), first - first % 32 + 32)
            x, y = 14 + 24 * (first % 32), 56 + 76 * (first // 32) + 32
            drawn.append(f"<path d='M{x + 2} {y}v4h{24 * (last - first) - 4}v-4' fill='none' stroke='#000000'/>"
                         + words(x + 12 * (last - first), y + 17, str(number), 12, "middle", weight="bold"))
        place += len(bits)
    bottom, widest = 56 + 76 * -(-len(marked) // 32), max(len(bits) for _, bits in parts)
    for number, (name, bits) in enumerate(parts, 1):
        drawn.append(words(14, bottom + 20 * number - 12, f"{number}", weight="bold") + words(40, bottom + 20 * number - 12, bits)
                     + words(60 + 8 * widest, bottom + 20 * number - 12, name))
    return picture(28 + 24 * min(32, len(marked)), bottom + 20 * len(parts) + 4, f"{count} bits of a packet in {len(marked) // 8} bytes", drawn)
