#!/usr/bin/env python3
"""A ground loop: ground.py [RESTORED] < STORE reads Space Packets (APID 100, 64 bits) from a pipe, prints each value that is out of its
limits, and what is missing. With a name it writes the contents there too, as `restore` does.

    ./onboard < hk.rec | python3 ground.py
"""

import os
import sys

from pocket import Kind, Receiver, space_packets

APID, BITS = 100, 64
# The name of each field, its first bit, its number of bits, whether it is signed, and its limits.
FIELDS = [("battery_mV", 8, 12, False, 2800, 3300), ("current_mA", 20, 12, True, -500, 500), ("temperature_C", 32, 8, True, -10, 40)]


def value(content, first, width, signed):
    """The number of `width` bits from the bit `first` on."""
    number = int.from_bytes(content, "big") >> (len(content) * 8 - first - width) & ((1 << width) - 1)
    return number - (1 << width) if signed and number >> (width - 1) else number


def main():
    with open(sys.argv[1] if len(sys.argv) > 1 else os.devnull, "wb") as restored, Receiver(BITS) as receiver:
        for packet in space_packets(open(0, "rb", buffering=0), APID):
            arrival = receiver.receive(packet.count, packet.data)
            if arrival.lost:
                print(f"packets {arrival.lost[0]} to {arrival.lost[-1]} are lost", flush=True)
            if arrival.kind != Kind.WRITTEN:
                continue
            for name, first, width, signed, low, high in FIELDS:
                found = value(arrival.content, first, width, signed)
                if not low <= found <= high:
                    print(f"{arrival.number},{name},{found},{low},{high}", flush=True)
            restored.write(arrival.content)


if __name__ == "__main__":
    main()
