HELP = """python3 -m pocket advise packets=N script=S rows=K [plan=P] [shift=M]: a small `robust` with which few rows make all safe that arrives.

    python3 -m pocket advise packets=1000 script=fades.csv rows=3 shift=10 out=pass.csv

`script` is an assumed loss, as for the command `forecast`, `plan` a schedule that stands already, and `rows` the most rows that may be
added to it, 0 to 1,000. With `shift` all holds for each script whose rows come up to so many packets earlier or later, all by the same
number, 0 to 1,000: without it the schedule fits that script alone.

For each required robustness from 0 to 7 it finds the packets that have to carry mask and whole content: each is the first that `forecast`
calls open, as the ones before it do. They make rows, each of packets at equal steps. The first robustness for which it found no more
than `rows` is told on standard error, or in the file report=, and the whole schedule is written: under it `forecast` calls each packet sure
that arrives. If it found none it says so; there may be one of other rows. What takes more than 2 seconds tells on standard error how far
it is. `forecast` is asked of the library, or of the program `pocket` if the library isn't there.

What a forecast calls sure is proved. Which rows are found is tested.
"""

import csv
import io
import os
import subprocess
import sys
import tempfile
import time
from typing import Iterator, List, NamedTuple, Optional, Sequence, Set, Tuple

from . import PocketError
from . import run as command
from .tool import ToolError, contents, given, number_of, outputs

KEYS = ("packets", "script", "rows", "plan", "shift", "out", "report")
MOST_ROBUSTNESS = 7
LAST = 2**32 - 1
# How many next packets are tried as the second one of a row, and after how many seconds it is told how far it is.
NEXT, SECONDS = 64, 2


def by_program(words: Sequence[str], plan: bytes, script: bytes) -> str:
    """What the program writes of a forecast."""
    with tempfile.TemporaryDirectory(prefix="pocket-advise-") as folder:
        for name, text in (("plan", plan), ("script", script)):
            with open(os.path.join(folder, name), "wb") as file:
                file.write(text)
        try:
            ran = subprocess.run(["pocket", *words, "out=-", "plan=plan", "script=script"], cwd=folder, capture_output=True, text=True, check=False)
        except OSError:
            raise ToolError("neither the library is there, which POCKET_LIBRARY can name, nor the program pocket") from None
    if ran.returncode:
        raise ToolError((ran.stderr.splitlines() or ["pocket ended without a word"])[0].replace("pocket: ", "", 1))
    return ran.stdout


def forecast(packets: int, robust: int, plan: bytes, script: bytes) -> str:
    """The forecast of a pass."""
    words = ("forecast", f"packets={packets}", f"robust={robust}")
    try:
        return command(*words, "out=out", "plan=plan", "script=script", inputs={"plan": plan, "script": script})["out"].decode()
    except OSError:
        # (the library isn't there, or has no desk)
        return by_program(words, plan, script)
    except PocketError as refusal:
        raise ToolError(str(refusal)) from refusal


def shifted(script: bytes, by: int) -> bytes:
    """A script that the forecast takes, whose rows come so many packets later, or earlier."""
    rows = []
    for row in csv.reader(io.StringIO(script.decode("utf-8-sig"), newline="")):
        if row:
            first, last, step = map(int, row[1:4])
            first, last = first + by if first + by >= 0 else (first + by) % step, min(last + by, LAST)
            rows += [",".join([row[0], str(first), str(last), *row[3:]])] if first <= last else []
    return "\n".join(rows).encode()


def joined(heads: List[int]) -> List[str]:
    """Rows that name these packets and no other: each from the first one that no row before it names, of the steps that reach most of them."""
    rows, known, left = [], set(heads), heads
    while left:
        first, best = left[0], (1, left[0], 1)
        for second in left[1:NEXT]:
            last, step = second, second - first
            while last + step in known:
                last += step
            best = max(best, ((last - first) // step + 1, last, step), key=lambda one: one[0])
        _, last, step = best
        rows.append(f"{first},{last},{step},fr")
        left = [head for head in left if head > last or (head - first) % step]
    return rows


class Pass(NamedTuple):
    """What is assumed of a pass: how many packets, the schedule so far, and the losses, of which any one may come."""

    packets: int
    plan: bytes
    scripts: List[bytes]

    def opened(self, robust: int, rows: List[str], script: bytes) -> List[int]:
        """The packets that are open under the schedule with more rows, whatever becomes of other ones: each is the first after a sure one."""
        found, is_first = [], True
        for line in forecast(self.packets, robust, self.plan + b"".join(b"\n" + row.encode() for row in rows), script).splitlines():
            first, _, state = line.split(",")
            if state == "open" and is_first:
                found.append(int(first))
            is_first = state == "sure" or (is_first and state != "open")
        return found

    def rows(self, robust: int, most: int) -> Iterator[Tuple[int, Optional[List[str]]]]:
        """How many packets carry whole content so far, and at the end the rows that make all sure that arrives, if they are few enough."""
        heads: Set[int] = set()
        rows: List[str] = []
        is_done = False
        while not is_done:
            is_done = True
            for script in self.scripts:
                while (found := self.opened(robust, rows, script)) and len(rows) <= most:
                    heads.update(found)
                    rows, is_done = joined(sorted(heads)), False
                    yield len(heads), None
        if len(rows) <= most:
            yield len(heads), rows


def found_in(own: Pass, most: int) -> Tuple[int, List[str]]:
    """The first required robustness for which few rows are found, and these."""
    told = time.monotonic()
    for robust in range(MOST_ROBUSTNESS + 1):
        for heads, rows in own.rows(robust, most):
            if rows is not None:
                return robust, rows
            if time.monotonic() >= told + SECONDS and sys.stderr is not None:
                told = time.monotonic()
                print(f"pocket advise: robust={robust}, {heads} packets with whole content so far", file=sys.stderr, flush=True)
    raise ToolError(f"found no robust, 0 to {MOST_ROBUSTNESS}, with at most {most} rows that make all sure that arrives")


def run(words: List[str]) -> int:
    """Writes the schedule, and tells what it is for."""
    said = given(words, KEYS, ["packets", "script", "rows"])
    packets, most, shift = number_of(said, "packets", 1, 1_000_000) or 1, number_of(said, "rows", 0, 1000) or 0, number_of(said, "shift", 0, 1000) or 0
    with outputs("advise", said, [said[key] for key in ("plan", "script") if key in said]) as (out, tell):
        plan, script = contents(said["plan"]) if "plan" in said else b"", contents(said["script"])
        # (a wrong row is refused before rows are shifted)
        forecast(packets, 0, plan, script)
        by_turns = sorted(range(-shift, shift + 1), key=abs)
        robust, rows = found_in(Pass(packets, plan, [script if by == 0 else shifted(script, by) for by in by_turns]), most)
        tell(f"robust={robust}, {len(rows)} rows")
        out.write(plan + (b"" if not plan or plan.endswith((b"\n", b"\r")) else b"\n") + b"".join(row.encode() + b"\n" for row in rows))
    return 0
