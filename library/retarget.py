#!/usr/bin/env python3
"""Builds the library for a processor, over the libraries that the gate has proved: library/retarget.py TARGET FOLDER writes
FOLDER/libpocket_c.a.

- x86_64-linux-gnu is what `rt lib` makes in crates/pocket_c, but `rt lib` proves the libraries below anew if no check of its own has
  kept them, and the gate keeps none of those. Here `rattle build` takes the gate's (crates/*/out/rlib), and proves the crate alone.
  It has the crate's module compiled by the clang of the folder of tools that it is given. Here that clang keeps the module
  (FOLDER/module.bc), from which library/module.py makes that of the page, and calls the toolchain's own. What `rattle build` said, whose last
  line tells what is proved, is FOLDER/build.log.
- aarch64-linux-gnu is a target of the toolchain: `rattle build` proves the crate for it too, and clang gets one flag more: all accesses
  are aligned.
- riscv64-linux-gnu is none: library/retarget.py riscv64-linux-gnu FOLDER MODULE takes a module that was kept, turns its text
  (FOLDER/turned.ll), and has the toolchain's clang compile that: its data layout, its triple, the attributes that name a processor or a
  way of the other one, the one instruction that only the other one has, and narrow results, which a caller on RISC-V takes to be
  widened. So it is compiled another way: compared (tests/test_processors.py), not proved.

With POCKET_UNALIGNED=1 in the environment, accesses that are not aligned are left to the processor.
"""

import os
import pathlib
import re
import shlex
import shutil
import subprocess
import sys

TOP = os.path.dirname(os.path.dirname(os.path.abspath(__file__)))
CRATE = "pocket_c"
NATIVE, ARM, RISC_V = "x86_64-linux-gnu", "aarch64-linux-gnu", "riscv64-linux-gnu"
STRICT = ["-mno-strict-align" if os.environ.get("POCKET_UNALIGNED") else "-mstrict-align"]

ARM_TRIPLE, TRIPLE = "aarch64-unknown-linux-gnu", "riscv64-unknown-linux-gnu"
LAYOUT = "e-m:e-p:64:64-i64:64-i128:128-n32:64-S128"
# The toolchain's flags of clang for each target, and those that it has for all but x86-64.
FLAGS = ["-O3", "-ffunction-sections", "-fdata-sections", "-mllvm", "-no-trap-after-noreturn", "-mllvm", "-trap-unreachable", "--no-default-config"]
OTHER_FLAGS = [*FLAGS, "-mllvm", "-disable-machine-licm", "-mllvm", "-disable-postra-machine-licm", "-mllvm", "-sink-common-insts=false", "-Werror"]
# The processor: rv64gc, with doubles in registers.
RISC_V_FLAGS = [f"--target={TRIPLE}", "-march=rv64gc", "-mabi=lp64d", "-fPIC", *OTHER_FLAGS]

# Attributes that name a processor, or how its stack is probed.
ATTRIBUTES = re.compile(r' "(?:target-cpu|target-features|tune-cpu|probe-stack|stack-probe-size)"(?:="[^"]*")?')
# The line of a function that is seen outside and whose result has fewer bits than a register.
RESULT = re.compile(r"^(define|declare)((?: (?!internal|private)[a-z_]+)*) (i1|i8|i16|i32) (?=@)", re.M)
# Numbers of 32 bits are widened by their sign on RISC-V, whatever C calls them; all others by zeros.
WIDENED = {"i1": "zeroext", "i8": "zeroext", "i16": "zeroext", "i32": "signext"}
# The one instruction of the module that only the other processor has, the sums of neighbours in two vectors, and the same in plain words.
SUMS = "@llvm.aarch64.neon.addp.v16i8"
DECLARED = re.compile(rf"^declare <16 x i8> {re.escape(SUMS)}\(.*$", re.M)
CHOSEN = "shufflevector <16 x i8> %a, <16 x i8> %b, <16 x i32> <{}>"
SUMMED = f"""define internal <16 x i8> @neighbours(<16 x i8> %a, <16 x i8> %b) alwaysinline {{
  %even = {CHOSEN.format(", ".join(f"i32 {place}" for place in range(0, 32, 2)))}
  %odd = {CHOSEN.format(", ".join(f"i32 {place}" for place in range(1, 32, 2)))}
  %sums = add <16 x i8> %even, %odd
  ret <16 x i8> %sums
}}"""


def retold(text, layout, triple):
    """The text of a module with another data layout and triple."""
    for name, value in (("datalayout", layout), ("triple", triple)):
        text, times = re.subn(f'^target {name} = "[^"]*"', f'target {name} = "{value}"', text, flags=re.M)
        if times != 1:
            sys.exit(f"the module has {times} lines 'target {name}'")
    return text


def text_of(module, clang, target):
    """The text of a module that was kept, which is for the target."""
    written = [clang, "-x", "ir", module, "-S", "-emit-llvm", "-Xclang", "-disable-llvm-passes", "-o", "-", f"--target={target}"]
    return subprocess.run(written, check=True, capture_output=True, text=True, errors="surrogateescape").stdout


def turned(text):
    """The text of a module for aarch64, for riscv64."""
    text = ATTRIBUTES.sub("", retold(text, LAYOUT, TRIPLE))
    text, times = RESULT.subn(lambda it: f"{it[1]}{it[2]} {WIDENED[it[3]]} {it[3]} ", text)
    if times == 0:
        sys.exit("the module has no narrow result: its text has another form")
    text = DECLARED.sub(SUMMED, text).replace(SUMS, "@neighbours")
    if "@llvm.aarch64." in text:
        sys.exit("the module has an instruction that RISC-V has not")
    return text


def turn(module, folder, tools):
    """Compiles a module that was kept for riscv64."""
    clang, object_file, archive = f"{tools}/clang", f"{folder}/{CRATE}.o", f"{folder}/lib{CRATE}.a"
    text = text_of(module, clang, ARM_TRIPLE)
    pathlib.Path(folder, "turned.ll").write_text(turned(text), "utf-8", "surrogateescape")
    subprocess.run([clang, *RISC_V_FLAGS, *STRICT, "-c", "-x", "ir", f"{folder}/turned.ll", "-o", object_file], check=True)
    pathlib.Path(archive).unlink(missing_ok=True)
    subprocess.run([f"{tools}/llvm-ar", "rcsD", archive, object_file], check=True)


def rows():
    """The crates, and what each stands on, of crates.txt."""
    lines = (line.partition("#")[0].partition(":") for line in pathlib.Path(TOP, "crates.txt").read_text("utf-8").splitlines())
    return {name.split()[0]: uses.split() for name, _, uses in lines if name.strip()}


def below(crate, uses):
    """The crates of this repository on which a crate stands, itself left out."""
    found = {}
    for name in uses[crate]:
        if name in uses:
            found.update(dict.fromkeys([name, *below(name, uses)]))
    return found


def build_words(kit):
    """The words of `rattle build` for the crate, as `rt lib` says them."""
    uses = rows()
    rlib = lambda it: f"{TOP}/crates/{it}/out/rlib" if it in uses else f"{kit}/rlibs"
    words = ["--crate-name", CRATE, "src/lib.rt"]
    for name in ["std", *uses[CRATE]]:
        words += ["--extern", f"{name}={rlib(name)}/{name}.rlib"]
    words += ["-L", f"dependency={kit}/rlibs"]
    for name in below(CRATE, uses):
        words += ["-L", f"dependency={rlib(name)}"]
    words += ["--antt-project", f"{kit}/rattle/logic/antt-project.json", "--logic-built", f"{kit}/logic_built"]
    kept = f"{TOP}/crates/{CRATE}/out/incremental"
    jobs = str(len(os.sched_getaffinity(0)))
    return words + ["--incremental", kept, "--jobs", jobs, "--links", f"{CRATE}=", "--crate-type", "staticlib"]


def wrapped(kit, folder, flags):
    """A folder of tools, whose clang keeps the module that it is handed in a folder, and then compiles with these flags more."""
    made, tools = f"{folder}/toolchain", f"{kit}/toolchain"
    shutil.rmtree(made, ignore_errors=True)
    os.makedirs(f"{made}/bin")
    os.symlink(f"{tools}/lib", f"{made}/lib")
    for name in os.listdir(f"{tools}/bin"):
        if name != "clang":
            os.symlink(f"{tools}/bin/{name}", f"{made}/bin/{name}")
    clang = pathlib.Path(made, "bin", "clang")
    keep = f'for word; do case "$word" in *.bc) test ! -f "$word" || cat "$word" > {shlex.quote(folder)}/module.bc;; esac; done'
    clang.write_text(f'#!/bin/sh\n{keep}\nexec {shlex.quote(tools)}/bin/clang "$@" {" ".join(flags)}\n', "utf-8")
    clang.chmod(0o755)
    return made


def build(folder, kit, words, flags):
    """Has `rattle build` prove and build the crate into a folder, by these words more, with the tools that `rt lib` takes and flags more for
    clang, and keeps its module. Prints its last line, and ends with its status."""
    archive, tools = f"{folder}/lib{CRATE}.a", wrapped(kit, folder, flags)
    pathlib.Path(archive).unlink(missing_ok=True)
    os.makedirs(f"{TOP}/crates/{CRATE}/out", exist_ok=True)
    with open(f"{folder}/build.log", "w+", encoding="utf-8", errors="replace") as log:
        ran = subprocess.run(["rattle", "build", *build_words(kit), *words, "--toolchain", tools, "-o", archive], cwd=f"{TOP}/crates/{CRATE}",
                             stdout=log, stderr=subprocess.STDOUT)
        log.seek(0)
        lines = log.read().splitlines()
    shutil.rmtree(tools)  # it has links, which the gate refuses
    print("\n".join(lines[-1:] if ran.returncode == 0 else lines[-20:]))
    sys.exit(ran.returncode)


def kit_of(is_called, text):
    """The toolchain's folder; ends with the text if a script is called in another way than it has to be."""
    rattle = shutil.which("rattle")
    if not rattle or not is_called:
        sys.exit(text if rattle else "the toolchain's rattle is not on the path")
    return os.path.dirname(os.path.dirname(os.path.realpath(rattle)))


def main():
    kit = kit_of(sys.argv[1:2] in ([NATIVE], [ARM], [RISC_V]) and len(sys.argv) == (4 if sys.argv[1] == RISC_V else 3), __doc__)
    folder = os.path.abspath(sys.argv[2])
    os.makedirs(folder, exist_ok=True)
    if sys.argv[1] == RISC_V:
        turn(sys.argv[3], folder, f"{kit}/toolchain/bin")
    elif sys.argv[1] == ARM:
        build(folder, kit, ["--target", ARM_TRIPLE], STRICT)
    else:
        build(folder, kit, ["--backend", "llvm"], [])


if __name__ == "__main__":
    main()
