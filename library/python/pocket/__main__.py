HELP = """python3 -m pocket bits=BITS apid=APID: shows what is found of the Space Packets of standard input, each as it arrives.

The lines are those of the command `show`, but that a written packet has its content alone, and no mask is shown.

`python3 -m pocket TOOL ..` does what a tool says by `--help`: `advise` finds a schedule for an assumed loss, `frames` takes packets out of
transfer frames, `merge` joins records of several stations, `numbers` gives a table its packets' numbers and times, `pack` makes a
recording of a table.

A tool writes to standard output, or to the file out=, and tells on standard error, or in the file report= (but `numbers`, which reads
that). A file stands beside its name, in NAME.part, until all is done. What is refused or fails is told in one line, and the status is 1; it
is 3 if all is written and something is told that has to be looked at first, and 130 after an interrupt.
"""

import contextlib
import importlib
import os
import sys
from typing import Iterator, List, Tuple

from . import Arrival, Kind, PocketError, Receiver, SpacePacket, space_packets
from .calls import MOST_BITS
from .packets import IDLE
from .tool import ToolError, near, opened, whole_number

TOOLS = ("advise", "frames", "merge", "numbers", "pack")
WORDS = {"bits": range(1, MOST_BITS + 1), "apid": range(IDLE)}
HELPS = ("--help", "-h")


def lines(arrival: Arrival) -> Iterator[str]:
    """What is lost before an arrival, and what is found of it."""
    if arrival.lost:
        yield f"{arrival.lost[0]}-{arrival.lost[-1]} lost"
    name = arrival.kind.name.lower()
    if arrival.content is not None:
        yield f"{arrival.number} written {arrival.content.hex()}"
    elif arrival.kind in (Kind.REPEAT, Kind.UNSYNCED):
        yield f"{arrival.number} {name}"
    else:
        yield f"{arrival.number} {name} {arrival.value}"


def chosen(words: List[str]) -> Tuple[int, int]:
    """The numbers that the words give."""
    given = dict(word.partition("=")[::2] for word in words)
    if words and "=" not in words[0]:
        raise ToolError(f"{words[0]}: {near(words[0], TOOLS + HELPS[:1])}")
    if set(given) != set(WORDS) or len(words) != len(WORDS):
        raise ToolError("it takes bits=BITS and apid=APID, or the name of a tool (--help)")
    for key, allowed in WORDS.items():
        if whole_number(given[key], allowed[0], allowed[-1]) is None:
            raise ToolError(f"{key} is a number from {allowed[0]} to {allowed[-1]}")
    return int(given["bits"]), int(given["apid"])


def arriving(apid: int) -> Iterator[SpacePacket]:
    """The packets of standard input, as they arrive."""
    try:
        yield from space_packets(opened("-"), apid)
    except OSError as error:
        raise ToolError(f"-: {error.strerror}") from error


def show(words: List[str]) -> int:
    """Shows what is found of the packets of standard input."""
    bits, apid = chosen(words)
    with Receiver(bits) as receiver:
        for packet in arriving(apid):
            for line in lines(receiver.receive(packet.count, packet.data)):
                print(line, flush=True)
        counts = receiver.counts()
        print(f"end {counts.packets} {counts.written} {counts.repeats}", flush=True)
    return 0


def done(words: List[str]) -> int:
    """Does what the words say, and gives the status."""
    module = importlib.import_module("." + words[0], __package__) if words and words[0] in TOOLS else sys.modules[__name__]
    own = words[1:] if words and words[0] in TOOLS else words
    if sys.stdout is None and (own is words or own[-1:] in (["--help"], ["-h"])):
        raise ToolError("standard output is closed")
    if len(own) == 1 and own[0] in HELPS:
        print(str(module.HELP).rstrip(), flush=True)
        return 0
    found: int = show(own) if own is words else module.run(own)
    return found


def main() -> int:
    words, status = sys.argv[1:], 1
    try:
        return done(words)
    except (ToolError, PocketError) as refusal:
        why, status = str(refusal), getattr(refusal, "status", 1)
    except OSError as error:
        # (what fails in reading is refused; the library that isn't there has no number)
        why = f"writing failed: {error.strerror}" if error.errno else f"{error}: POCKET_LIBRARY can name it"
    except KeyboardInterrupt:
        why, status = "interrupted", 130
    except MemoryError:
        why = "out of memory"
    if sys.stdout is not None:
        # What is still to be written would fail again as Python ends.
        os.dup2(os.open(os.devnull, os.O_WRONLY), 1)
    tool = f" {words[0]}" if words and words[0] in TOOLS else ""
    if sys.stderr is not None:
        with contextlib.suppress(OSError):
            print(f"pocket{tool}: {why}", file=sys.stderr, flush=True)
    return status


if __name__ == "__main__":
    sys.exit(main())
