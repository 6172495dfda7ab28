#!/usr/bin/env python3
"""Draws pictures of what pocket lists, as SVG on standard output.

    draw.py listing < LISTING             the packets of a listing (what `pocket show` writes), one cell for each number
    draw.py table REPORT FIELDS < TABLE   the fields of a table (what `pocket table` writes, with its report), one strip for each
    draw.py forecast < FORECAST           the packets of a forecast (what `pocket forecast` writes), as a strip by number
    draw.py packet NAME=BITS NAME=BITS .. the bits of one packet, part by part, and its bytes

A listing, a table, a report or a forecast that can't be read is refused with the number of its first wrong line, parts with the
first wrong word, and so are more than 200,000 lines, or 1,000,000 packets of a forecast; the exit status is then 1. docs/FORMATS.md has
the lines of each and the parts of a packet. What has no room alone is drawn with what is beside it: packets as the worst of them, values
from the least to the greatest, marks as one; the title of each says what it stands for.
"""

import os
import sys

sys.dont_write_bytecode = True
sys.path.insert(0, os.path.dirname(os.path.abspath(__file__)))
from fields import draw_table
from forecast import draw_forecast
from listing import draw_listing
from packet import draw_packet
from svg import Wrong


def main(given):
    kind, *names = given or [""]
    draws = {("listing", 0): draw_listing, ("table", 2): draw_table, ("forecast", 0): draw_forecast}.get((kind, len(names)))
    if not draws and kind != "packet":
        sys.exit(__doc__)
    try:
        sys.stdout.write(draws(sys.stdin.buffer.read().decode("ascii", "replace"), *names) if draws else draw_packet(names))
    except Wrong as fault:
        sys.exit(f"draw.py: {fault}")


if __name__ == "__main__":
    main(sys.argv[1:])
