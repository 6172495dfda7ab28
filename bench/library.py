#!/usr/bin/env python3
"""Measures the library for C on each processor, and prints the tables of docs/BENCHMARK.md: python3 bench/library.py > tables.md

At the top, after the gate's proofs (crates/pocket_c/out); with --unaligned the libraries that leave accesses which are
not aligned to the processor are measured too. It takes gcc, Debian's cross compilers and qemu-user, and prints what is left out without them.
The libraries of other processors are built if they are not there (library/targets.mk). Instructions are counted by a plugin of qemu-user
(instructions.c), on x86-64 too; they are the same in each run, and no times.
"""

import argparse
import os
import re
import shutil
import subprocess
import sys
import tempfile

import measure
from recordings import record

HERE = os.path.dirname(os.path.abspath(__file__))
TOP = os.path.dirname(HERE)
NATIVE = "x86-64"
EMULATORS = {NATIVE: "qemu-x86_64", "aarch64": "qemu-aarch64", "riscv64": "qemu-riscv64"}
ALONE = "pocket_sender_open pocket_send pocket_receiver_open pocket_receive pocket_counts pocket_close".split()
FLAGS = "-std=c99 -Wall -Wextra -pedantic -Werror -O2 -static -Wl,--gc-sections -Wl,--wrap=rattle_alloc".split()

# The bits of an input; how many packets of 1,024 bits are counted; and the kinds of inputs (recordings.py) with their flags (library.c).
BITS = 8, 1024, 49_152
COUNTED = 480
KINDS = {"calm": "never", "noisy": "never", "turned": "always"}


class Processor:
    """The library of one processor, and what runs it."""

    def __init__(self, name, unaligned, folder):
        self.name, self.folder = name + (", unaligned" if unaligned else ""), folder
        self.tools = "" if name == NATIVE else f"{name}-linux-gnu-"
        self.emulator = EMULATORS[name]
        self.library = f"{TOP}/crates/pocket_c/out/libpocket_c.a"
        if name != NATIVE:
            self.library = f"{TOP}/library/out/{name}-linux-gnu{'-unaligned' * unaligned}/libpocket_c.a"
            self.make = ["make", "-s", "-f", "library/targets.mk", "lib", f"TARGET={name}-linux-gnu", *["unaligned=1"] * unaligned]
        self.driver = os.path.join(folder, self.name.replace(", ", "-"))

    def lacks(self):
        """What there is not, or None."""
        needed = [self.tools + "gcc", self.emulator]
        missing = [it for it in needed if not shutil.which(it)]
        if not missing and not os.path.exists(self.library) and self.name != NATIVE:
            subprocess.run(self.make, cwd=TOP, stdout=subprocess.DEVNULL)
        return missing or ([] if os.path.exists(self.library) else [self.library])

    def build(self):
        beside = [f"{TOP}/library/{name}.c" for name in ("checked", "checked_desk", "heap")] + [self.library]
        subprocess.run([self.tools + "gcc", *FLAGS, "-I", f"{TOP}/library", "-o", self.driver, f"{HERE}/library.c", *beside], check=True)

    def sections(self, path):
        return measure.sections(self.tools + "size", path)

    def alone(self):
        """The sections of senders and receivers without the desk: of the library, with all that they do not need left out."""
        made = os.path.join(self.folder, "alone.o")
        roots = [word for name in ALONE for word in ("-u", name)]
        subprocess.run([self.tools + "ld", "-r", "--gc-sections", *roots, "-o", made, self.library], check=True)
        return self.sections(made)

    def count(self, words):
        """The instructions of one run."""
        run = subprocess.run([self.emulator, "-plugin", f"{self.folder}/instructions.so", *words], capture_output=True, text=True)
        found = re.search(r"^instructions (\d+)$", run.stderr, re.M)
        if run.returncode or not found:
            sys.exit(f"{' '.join(words)}: {run.returncode} {run.stderr[-300:]}")
        return int(found.group(1))

    def recording(self, bits, kind):
        """The path of a recording of a kind, which has all packets that are counted."""
        path = f"{self.folder}/{kind}-{bits}"
        if not os.path.exists(path):
            record(path, bits, 2 * COUNTED, kind)
        return path

    def calls(self, kind):
        """The instructions of a send and of a receive."""
        return measure.for_one_more(self.count, self.driver, 1024, self.recording(1024, kind), COUNTED, KINDS[kind])

    def stack(self, bits, kind):
        """What is told of forty packets: the heap, the data of the longest packet, and the deepest stacks."""
        words = [self.emulator, self.driver, str(bits), self.recording(bits, kind), "40", "stack", KINDS[kind]]
        told = subprocess.run(words, check=True, capture_output=True, text=True).stdout.split()
        found = {name: int(value) for name, value in zip(told[::2], told[1::2])}
        if found["later"]:
            sys.exit(f"{self.name}: a send or a receive asked for memory")
        return found


def sizes(processors):
    """The rows of sizes and stacks."""
    alone = [it.alone() for it in processors]
    whole = [it.sections(it.library) for it in processors]
    deep = [[it.stack(bits, kind) for bits in BITS for kind in KINDS] for it in processors]
    yield "senders and receivers alone: text and constants", *(text for text, _ in alone)
    yield "their data", *(data for _, data in alone)
    yield "the whole library: text and constants", *(text for text, _ in whole)
    yield "its data", *(data for _, data in whole)
    for call in ("opening", "send", "receive"):
        yield f"deepest stack of {'a' if call != 'opening' else 'an'} {call}", *(max(one[call] for one in each) for each in deep)


def heaps(processors):
    """The rows of the heap of an open sender and receiver; on each processor it has to be the same."""
    for bits in BITS:
        told = [it.stack(bits, "calm") for it in processors]
        if len({(it["sender"], it["receiver"]) for it in told}) != 1:
            sys.exit(f"the heaps differ: {told}")
        yield bits, told[0]["sender"], told[0]["receiver"]


def packets(processors):
    """The rows of instructions: a send and a receive on each processor."""
    for kind in KINDS:
        made = [it.calls(kind) for it in processors]
        yield kind, processors[0].stack(1024, kind)["data"], *(one for one, _ in made), *(one for _, one in made)


def show(given, folder):
    subprocess.run(["gcc", "-shared", "-fPIC", "-O2", "-o", f"{folder}/instructions.so", f"{HERE}/instructions.c"], check=True)
    there, before = [], measure.load()
    wanted = [(it, False) for it in EMULATORS] + [(it, True) for it in EMULATORS if given.unaligned and it != NATIVE]
    for name, unaligned in wanted if given.others else wanted[:1]:
        one = Processor(name, unaligned, folder)
        missing = one.lacks()
        if missing:
            print(f"left out: {one.name}, since there is no {' '.join(missing)}", flush=True)
            continue
        one.build()
        there.append(one)
    if not there:
        sys.exit("there is no library to measure")
    names = [it.name for it in there]
    measure.show_table("The library: sizes and stacks", ["Bytes", *names], sizes(there))
    measure.show_table("The library: heap", ["Bits of an input", "Bytes of an open sender", "Of an open receiver"], heaps(there))
    aligned = [it for it in there if "unaligned" not in it.name]
    of = [f"{call}: {it.name}" for call in ("Send", "Receive") for it in aligned]
    measure.show_table("The library: instructions for a packet", ["Inputs", "Data, bytes at most", *of], packets(aligned))
    print(measure.told_by("bench/library.py", "" if given.others else ", --native", before))


def main():
    words = argparse.ArgumentParser(description=__doc__, formatter_class=argparse.RawDescriptionHelpFormatter)
    words.add_argument("--unaligned", action="store_true", help="measure (and build) these libraries too")
    words.add_argument("--native", dest="others", action="store_false", help=f"measure the library of {NATIVE} alone")
    given = words.parse_args()
    with tempfile.TemporaryDirectory() as folder:
        show(given, folder)


if __name__ == "__main__":
    main()
