#!/usr/bin/env python3
"""Searches for the dearest packets, and prints the table of docs/BENCHMARK.md: python3 bench/search.py > search.md

Hill climbing from a seed: a few packets, each with the flags of its call, its robustness and 64 bits that turn in the input, again and again
over its length; what makes a send, or a receive, take more instructions is kept. It climbs over the one file on x86-64, and over the library if
it is there, at several lengths of an input, from packets that were known and from any; the best of each climb are then counted at all
lengths, on the processors of the examples too. Instructions are counted by a plugin of qemu (instructions.c): the same in each run, and no times.
"""

import argparse
import os
import random
import shutil
import subprocess
import sys
import tempfile

import measure

HERE = os.path.dirname(os.path.abspath(__file__))
TOP = os.path.dirname(HERE)
EXAMPLES = f"{TOP}/library/examples"
# At which lengths of an input it climbs, by how many trials from each of three starts; and at which the best are counted.
TRIALS = {8: 2000, 64: 2000, 256: 500}
COUNTED, LONG = (8, 64, 256, 1024), (4096, 49_152)
# So many packets are sent in a trial, of steps that repeat.
PACKETS, MOST_STEPS = 24, 16
KNOWN = [(7, 7, word << 32 | word) for word in (0xCCCCCCCC, 0x31313531, 0x55555555, 0x6AF5C598, 0x96969696, 0xBF086551, 0x2264E2D0)]
BARE = ["-Os", "-ffreestanding", "-DPOCKET_NO_HEAP", "-DPOCKET_NO_STATES", "-static"]
# A processor without an operating system: its compiler and flags, the files of its example, and what runs it.
MACHINES = {
    "Cortex-M3": (["arm-none-eabi-gcc", "-mcpu=cortex-m3", "-mthumb", *BARE, "-nostartfiles"], "cortex-m", ["start.c", "board.c"],
                  "qemu-system-arm -M mps2-an385 -display none -serial none -monitor none -semihosting-config enable=on,target=native -kernel".split()),
    "LEON3": (["sparc64-linux-gnu-gcc", "-m32", "-mcpu=leon3", *BARE, "-fno-pic", "-fno-pie", "-no-pie", "-z", "noexecstack", "-DPOCKET_NO_LIBC", "-nostdlib"],
              "leon3", ["start.S", "board.c", "helpers.c"], "qemu-system-sparc -M leon3_generic -display none -monitor none -serial null -kernel".split()),
}


class Process:
    """A driver (search.c) on this processor, which is given trials one by one; of all it keeps the dearest send and receive, by bits."""

    def __init__(self, name, folder, source, others):
        made = f"{folder}/{name.replace(' ', '-')}"
        subprocess.run(["gcc", "-std=gnu99", "-O2", "-static", "-Wl,--gc-sections", "-I", source, "-o", made, f"{HERE}/search.c", *others], check=True)
        words = ["qemu-x86_64", "-d", "plugin", "-plugin", f"{folder}/instructions.so", made]
        self.running = subprocess.Popen(words, stdin=subprocess.PIPE, stderr=subprocess.PIPE, text=True)
        self.dearest = {}

    def costs(self, bits, steps):
        """The most instructions of a send, and of a receive, in a trial."""
        told = " ".join(f"{flags} {robustness} {turned:X}" for flags, robustness, turned in steps)
        self.running.stdin.write(f"{bits} {PACKETS} {len(steps)} {told}\n")
        self.running.stdin.flush()
        found = most([self.running.stderr.readline() for _ in range(3 * PACKETS)])
        self.dearest[bits] = tuple(map(max, self.dearest.get(bits, found), found))
        return found

    def all(self, trials):
        """The same of several trials, each with its bits."""
        return [self.costs(*trial) for trial in trials]


def most(lines):
    """The most instructions of a send, and of a receive, of what the plugin prints of a trial."""
    if len(lines) != 3 * PACKETS or not lines[-1]:
        sys.exit("a trial failed")
    at = [int(line.split()[1]) for line in lines]
    return max(b - a for a, b in zip(at[0::3], at[1::3])), max(b - a for a, b in zip(at[1::3], at[2::3]))


class Machine:
    """The same on a processor without an operating system, which has the trials in its program."""

    def __init__(self, name, folder, dist):
        self.compiler, self.example, self.files, self.machine = MACHINES[name]
        self.folder, self.dist, self.dearest = folder, dist, {}

    def all(self, trials):
        with open(f"{self.folder}/trials.h", "w", encoding="ascii") as file:
            for bits, steps in trials:
                told = ", ".join(f"{{ {flags}, {robustness}, 0x{turned:X}u }}" for flags, robustness, turned in steps)
                file.write(f"{{ {bits}, {PACKETS}, {len(steps)}, {{ {told} }} }},\n")
        at, made = f"{EXAMPLES}/{self.example}", f"{self.folder}/{self.example}.elf"
        beside = ["-I", self.dist, "-I", self.folder, "-I", f"{EXAMPLES}/leon3", "-T", f"{at}/link.ld", *(f"{at}/{it}" for it in self.files)]
        run = lambda *words: subprocess.run(words, check=True, capture_output=True, text=True).stderr
        run(*self.compiler, '-DTRIALS="trials.h"', *beside, "-o", made, f"{HERE}/search.c", f"{self.dist}/pocket.c")
        told = run(*self.machine, made, "-plugin", f"{self.folder}/instructions.so")
        lines = [line for line in told.splitlines() if line.startswith("mark ")]
        costs = [most(lines[at:at + 3 * PACKETS]) for at in range(0, 3 * PACKETS * len(trials), 3 * PACKETS)]
        for (bits, _), cost in zip(trials, costs):
            self.dearest[bits] = tuple(map(max, self.dearest.get(bits, cost), cost))
        return costs


def word(draw):
    """Bits that turn: any, or few that come again and again."""
    few = draw.choice((4, 8, 16, 32, 64))
    return draw.getrandbits(few) * ((2**64 - 1) // (2**few - 1))


def mutated(draw, steps):
    """The steps, of which something was changed."""
    at = draw.randrange(len(steps))
    flags, robustness, turned = steps[at]
    way = draw.randrange(10)
    if way < 4:
        turned ^= word(draw) & word(draw) & word(draw) if way else 1 << draw.randrange(64)
    elif way == 4:
        turned = word(draw)
    elif way == 5:
        turned = turned << 1 & 2**64 - 1 | turned >> 63
    elif way == 6:
        flags, robustness = draw.choice((draw.randrange(8), flags)), draw.choice((draw.randrange(8), robustness))
    elif way == 7:
        turned = draw.choice(steps)[2]
    step = (flags, robustness, turned)
    if way == 8 and len(steps) < MOST_STEPS:
        return [*steps[:at], draw.choice(steps), *steps[at:]]
    return [*steps[:at], *([] if way == 9 and len(steps) > 1 else [step]), *steps[at + 1:]]


def climbed(process, draw, bits, call, steps):
    """The cost that a climb came to, and its steps."""
    best = process.costs(bits, steps)[call]
    for _ in range(TRIALS[bits]):
        tried = mutated(draw, steps)
        cost = process.costs(bits, tried)[call]
        if cost >= best:
            best, steps = cost, tried
    return best, steps


def searched(process, seed):
    """The steps of the best climb for each call and length: it starts at what was known, at the best so far, and at any."""
    draw = random.Random(seed)
    for call in range(2):
        steps = KNOWN
        for bits in TRIALS:
            starts = [KNOWN, steps, [(7, 7, word(draw)) for _ in range(draw.randrange(2, 9))]]
            steps = max((climbed(process, draw, bits, call, start) for start in starts), key=lambda it: it[0])[1]
            yield steps


def processes(dist, folder):
    """What the search climbs over."""
    library = f"{TOP}/crates/pocket_c/out/libpocket_c.a"
    if os.path.exists(library):
        yield "library", Process("library", folder, f"{TOP}/library", [f"{TOP}/library/checked.c", library, f"{TOP}/library/heap.c"])
    yield "file", Process("file", folder, dist, [f"{dist}/pocket.c"])


def counted(dist, folder, seed):
    """For each processor the dearest send and receive that were found, by bits: of long inputs those steps that were the dearest before."""
    there, found = dict(processes(dist, folder)), [KNOWN]
    for process in there.values():
        found += [steps for steps in searched(process, seed) if steps not in found]
    for name, (compiler, _, _, machine) in MACHINES.items():
        if shutil.which(compiler[0]) and shutil.which(machine[0]):
            there[name] = Machine(name, folder, dist)
    for name, one in there.items():
        costs = one.all([(bits, steps) for bits in COUNTED for steps in found])[-len(found):]
        dearest = [max(zip(costs, found), key=lambda it, call=call: it[0][call])[1] for call in range(2)]
        one.all([(bits, steps) for bits in LONG for steps in dearest])
        yield name, one.dearest


def line_above(costs):
    """A line above costs by bits: its slope is that of the longest inputs, rounded up."""
    low, high = LONG
    slope = -(-(costs[high] - costs[low]) // (high - low))
    return f"{max(0, *(-(-(cost - slope * bits) // 100) * 100 for bits, cost in costs.items())):,} + {slope:,} F"


def rows(found):
    """The rows of the table: for each length the dearest of each processor, and a line above all."""
    columns = [{bits: cost[call] for bits, cost in dearest.items()} for call in range(2) for dearest in found.values()]
    for bits in (*COUNTED, *LONG):
        yield bits, *(column[bits] for column in columns)
    yield "F, a line above all", *map(line_above, columns)


def main():
    words = argparse.ArgumentParser(description=__doc__, formatter_class=argparse.RawDescriptionHelpFormatter)
    words.add_argument("--dist", default=f"{TOP}/dist", help="the folder of pocket.c and pocket.h")
    words.add_argument("--seed", type=int, default=1, help="another search")
    given, before = words.parse_args(), measure.load()
    with tempfile.TemporaryDirectory() as folder:
        subprocess.run(["gcc", "-shared", "-fPIC", "-O2", "-o", f"{folder}/instructions.so", f"{HERE}/instructions.c"], check=True)
        found = dict(counted(os.path.abspath(given.dist), folder, given.seed))
    heads = ["Bits", *(f"{call}: {name}" for call in ("Send", "Receive") for name in found)]
    measure.show_table("The dearest packets that were found", heads, rows(found))
    print(measure.told_by("bench/search.py", f", seed {given.seed}", before))
    return 0


if __name__ == "__main__":
    sys.exit(main())
