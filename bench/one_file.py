#!/usr/bin/env python3
"""Measures the one C file, and prints the tables of docs/BENCHMARK.md: python3 bench/one_file.py > tables.md

At the top, after the gate's proofs (crates/pocket_c/out) and `make dist`; --dist names another folder than dist/. It takes gcc, valgrind, Debian's
cross compilers, and leaves out what is not there. Instructions are counted by valgrind, the same in each run, and no times.
"""

import argparse
import ctypes
import graphlib
import os
import re
import shutil
import subprocess
import sys
import tempfile

import measure
from recordings import KINDS, record

HERE = os.path.dirname(os.path.abspath(__file__))
TOP = os.path.dirname(HERE)
BITS = (8, 64, 1024, 8192, 49_152)
# What the file is compiled for, by which compiler, and with which flags.
PROCESSORS = {
    "x86-64": ("gcc", []), "i386": ("i686-linux-gnu-gcc", []), "Cortex-M3": ("arm-none-eabi-gcc", ["-mcpu=cortex-m3", "-mthumb"]),
    "Cortex-R5": ("arm-none-eabi-gcc", ["-mcpu=cortex-r5", "-mthumb"]), "armhf": ("arm-linux-gnueabihf-gcc", []),
    "powerpc": ("powerpc-linux-gnu-gcc", []), "LEON3": ("sparc64-linux-gnu-gcc", ["-m32", "-mcpu=leon3"]), "sparc64": ("sparc64-linux-gnu-gcc", []),
    "s390x": ("s390x-linux-gnu-gcc", []), "riscv32": ("riscv64-unknown-elf-gcc", ["-march=rv32imac", "-mabi=ilp32"]),
    "riscv64": ("riscv64-linux-gnu-gcc", []), "aarch64": ("aarch64-linux-gnu-gcc", []),
}
BARE = ["-ffreestanding", "-DPOCKET_NO_HEAP", "-DPOCKET_NO_LIBC"]
WAYS = {"sender alone": [*BARE, "-DPOCKET_NO_RECEIVER", "-DPOCKET_NO_STATES"], "both": [*BARE, "-DPOCKET_NO_STATES"], "both, with states": BARE,
        "both, unchecked": [*BARE, "-DPOCKET_NO_STATES", "-DPOCKET_UNCHECKED"]}


def run(words, where=None):
    return subprocess.run(words, check=True, capture_output=True, text=True, cwd=where).stdout


def sections(dist, folder, compiler, flags):
    """The bytes of text and constants of the file at -Os, and those of its data."""
    made = os.path.join(folder, "sized.o")
    run([compiler, "-std=c99", "-Os", *flags, "-c", f"{dist}/pocket.c", "-o", made])
    return measure.sections(re.sub(r"gcc$", "size", compiler), made)


def sizes(dist, folder):
    """The rows of what the file takes by processor."""
    for name, (compiler, flags) in PROCESSORS.items():
        if shutil.which(compiler):
            found = [sections(dist, folder, compiler, [*flags, *way]) for way in WAYS.values()]
            yield name, *(text for text, _ in found), max(data for _, data in found)


def built(dist, folder, name, compiler, flags, others):
    to = os.path.join(folder, name.replace(" ", "-"))
    run([compiler, "-std=gnu99", "-O2", *flags, "-I", dist, "-o", to, f"{HERE}/library.c", *others])
    return to


def memories(dist, folder):
    """The rows of the memory of a handle, and of a state."""
    run(["gcc", "-O1", "-fPIC", "-shared", "-o", f"{folder}/pocket.so", f"{dist}/pocket.c"])
    file = ctypes.CDLL(f"{folder}/pocket.so")
    for bits in BITS:
        yield bits, file.pocket_sender_bytes(bits), file.pocket_receiver_bytes(bits), file.pocket_state_bytes(bits, 1), file.pocket_state_bytes(bits, 2)


def packets(dist, folder, only):
    """The rows of instructions beside the library's."""
    library = [f"{TOP}/library/checked.c", f"{TOP}/crates/pocket_c/out/libpocket_c.a", f"{TOP}/library/heap.c"]
    native = built(dist, folder, "native", "gcc", ["-Wl,--gc-sections"], library)
    checked = built(dist, folder, "checked", "gcc", [], [f"{dist}/pocket.c"])
    unchecked = built(dist, folder, "unchecked", "gcc", ["-DPOCKET_UNCHECKED"], [f"{dist}/pocket.c"])
    for kind in KINDS[:2] if only else KINDS:
        recording = os.path.join(folder, "recording")
        record(recording, kind.bits, 2 * kind.counted, kind.moves)
        flags = "planned" if kind.schedule else "never"
        found = [measure.for_one_more(measure.instructions, it, kind.bits, recording, kind.counted, flags) for it in (native, checked, unchecked)]
        yield kind.name, kind.bits, *(send for send, _ in found), *(receive for _, receive in found)


def deepest(text, calls):
    """The most bytes of C's stack that each call takes, from what gcc tells of its functions and of whom they call. One that calls itself is an error."""
    own = {title: int(size) for title, size in re.findall(r'^node: \{ title: "([^"]+)" label: "[^"]*\\n(\d+) bytes \((?:static|dynamic,bounded)\)', text, re.M)}
    called = {}
    for caller, callee in re.findall(r'^edge: \{ sourcename: "([^"]+)" targetname: "([^"]+)"', text, re.M):
        called.setdefault(caller, set()).add(callee)
    found = {}
    for name in graphlib.TopologicalSorter(called).static_order():
        found[name] = own.get(name, 0) + max((found[it] for it in called.get(name, ())), default=0)
    return [found[call] for call in calls]


def stacks(dist, folder):
    """The rows of C's own stack, by processor: of an opening, a send, a receive, and a saving and a loading of a state."""
    calls = [f"pocket_checked_{it}" for it in ("sender_open_in", "receiver_open_in", "send", "receive", "save", "load")]
    for name, (compiler, flags) in PROCESSORS.items():
        if shutil.which(compiler):
            run([compiler, "-std=c99", "-Os", *flags, *BARE, "-fcallgraph-info=su", "-c", f"{dist}/pocket.c", "-o", "pocket.o"], where=folder)
            with open(os.path.join(folder, "pocket.ci"), encoding="utf-8") as file:
                found = deepest(file.read(), calls)
            yield name, max(found[:2]), found[2], found[3], max(found[4:])


def main():
    words = argparse.ArgumentParser(description=__doc__, formatter_class=argparse.RawDescriptionHelpFormatter)
    words.add_argument("--dist", default=f"{TOP}/dist", help="the folder of pocket.c and pocket.h")
    words.add_argument("--quick", action="store_true", help="two recordings alone")
    given = words.parse_args()
    dist, before = os.path.abspath(given.dist), measure.load()
    with tempfile.TemporaryDirectory() as folder:
        heads = ["Bits of an input", "Bytes of a sender", "Of a receiver", "State of a sender", "State of a receiver"]
        measure.show_table("The one C file: memory", heads, memories(dist, folder))
        heads, both = ["Processor", *WAYS, "data", "Stack: an opening", "a send", "a receive", "a state"], zip(sizes(dist, folder), stacks(dist, folder))
        measure.show_table("The one C file: text, constants and C's own stack", heads, ((*size, *stack[1:]) for size, stack in both))
        if measure.can_count():
            heads = ["Inputs", "Bits", "Send: library", "File", "Unchecked", "Receive: library", "File", "Unchecked"]
            measure.show_table("The one C file: instructions for a packet", heads, packets(dist, folder, given.quick))
    print(measure.told_by("bench/one_file.py", ", --quick" if given.quick else "", before))
    return 0


if __name__ == "__main__":
    sys.exit(main())
