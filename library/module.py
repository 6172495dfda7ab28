#!/usr/bin/env python3
"""Makes the WebAssembly module of the library pocket_c: library/module.py MODULE TO turns MODULE, which library/retarget.py kept as the
library was proved and built for x86-64 (crates/pocket_c/out/module.bc), and writes TO.

As library/retarget.py turns a module for RISC-V, so its text is turned here: data layout, triple, the attributes that name a processor;
and what the page calls gets the name under which it is exported, what the library asks of a heap the name under which it is imported.
The toolchain's clang compiles it with the flags that it has for wasm64, the toolchain's rattle-link links it. A memory of 64 bits is
refused by some browsers and slow in others, so Debian's wasm-opt (the package binaryen) turns each address into one of 32 bits. So the
module is compiled another way: compared (.ci/browser.py), not proved. Two builds of one module are equal to the bit.
"""

import os
import pathlib
import re
import shutil
import subprocess
import sys
import tempfile

sys.dont_write_bytecode = True
import retarget

TARGET = "wasm64-unknown-unknown"
LAYOUT = "e-m:e-p:64:64-p10:8:8-p20:8:8-i64:64-i128:128-n32:64-S128-ni:1:10:20"
FLAGS = [f"--target={TARGET}", "-mcpu=lime1", *retarget.OTHER_FLAGS, "-mllvm", "-expand-div-rem-bits=64", "-mllvm", "-expand-fp-convert-bits=64"]
# For C a function is taken into its callers up to this cost, by LLVM's measure (250 of itself): the words of masks are moved in place, a
# word of data is put by a call. No loop takes several words in a turn: that is a twentieth more text for a fiftieth fewer instructions.
FOR_C = ["-mllvm", "-inline-threshold=168"]
EXPORTS = ["pocket_desk_open", "pocket_put", "pocket_word", "pocket_run", "pocket_get", "pocket_close"]
# The calls of the library: those that are not exported are left out.
CALLS = re.compile(r"^define (?!internal|private)[^@\n]*@(pocket_\w+)\(", re.M)
# What the library asks of a heap, or another one in its place.
IMPORTS = re.compile(r"^declare [^@\n]*@(rattle_\w+)\(", re.M)


def with_attributes(text, line, name, attributes):
    """The text with attributes of its own for the function that a line defines or declares."""
    found = re.compile(rf"^({line} .*@{name}\(.*\)[^#\n]*) #(\d+)(.*)$", re.M)
    lines = found.findall(text)
    if len(lines) != 1:
        sys.exit(f"the module has {len(lines)} lines '{line} .. @{name}'")
    own = re.search(rf"^attributes #{lines[0][1]} = \{{(.*)\}}$", text, re.M)[1]
    number = 1 + max(int(it) for it in re.findall(r"^attributes #(\d+) =", text, re.M))
    text = found.sub(rf"\1 #{number}\3", text)
    return f"{text}\nattributes #{number} = {{{own}{attributes}}}\n"


def turned(text, exports):
    """The text of a module for x86-64, for wasm64, which exports these calls."""
    text = retarget.ATTRIBUTES.sub("", retarget.retold(text, LAYOUT, TARGET))
    text = CALLS.sub(lambda it: it[0] if it[1] in exports else it[0].replace("define", "define internal", 1), text)
    for name in exports:
        text = with_attributes(text, "define", name, f'"wasm-export-name"="{name}" ')
    for name in IMPORTS.findall(text):
        text = with_attributes(text, "declare", name, f'"wasm-import-module"="env" "wasm-import-name"="{name}" ')
    if "@llvm.x86." in text or "@llvm.aarch64." in text:
        sys.exit("the module has an instruction that WebAssembly has not")
    return text


def with_turns(text):
    """The text of a module in which words are turned by calls that are imported: WebAssembly has no instruction for it, and what LLVM
    puts in its place is mixed with what stands beside it, so that no later compiler knows it again."""
    for bits in (32, 64):
        name = f"rattle_turn{bits}"
        if f"@llvm.bswap.i{bits}(" in text:
            text = text.replace(f"@llvm.bswap.i{bits}(", f"@{name}(")
            text = with_attributes(text, "declare", name, f'"wasm-import-module"="env" "wasm-import-name"="{name}" ')
    return text


def make(module, to, kit, exports, for_c=False, left_out=lambda text: text):
    """Writes the WebAssembly module of a module that was kept, with these calls. For C it imports rattle_turn32 and rattle_turn64, which put
    the bytes of a word in the other order. Its text can be changed before all else."""
    lower = shutil.which("wasm-opt")
    if not lower:
        sys.exit("library/module.py: the package binaryen, which has wasm-opt, is not there")
    tools = f"{kit}/toolchain/bin"
    with tempfile.TemporaryDirectory(prefix="pocket-module-") as folder:
        at = lambda name: pathlib.Path(folder, name)
        text = turned(left_out(retarget.text_of(module, f"{tools}/clang", "x86_64-unknown-linux-gnu")), exports)
        at("turned.ll").write_text(text, "utf-8", "surrogateescape")
        run = lambda *words: subprocess.run(words, check=True, stderr=subprocess.PIPE)
        try:
            if for_c:
                run(f"{tools}/clang", *FLAGS, *FOR_C, "-S", "-emit-llvm", "-x", "ir", at("turned.ll"), "-o", at("made.ll"))
                at("turned.ll").write_text(with_turns(at("made.ll").read_text("utf-8", "surrogateescape")), "utf-8", "surrogateescape")
            made = ["-Xclang", "-disable-llvm-passes"] if for_c else []
            run(f"{tools}/clang", *FLAGS, *made, "-c", "-x", "ir", at("turned.ll"), "-o", at("turned.o"))
            run(f"{tools}/llvm-ar", "rcsD", at("turned.a"), at("turned.o"))
            run(f"{kit}/bin/rattle-link", "--target", TARGET, "--toolchain", f"{kit}/toolchain", "-o", at("wide.wasm"), at("turned.a"))
            run(lower, "--enable-memory64", "--enable-bulk-memory", "--memory64-lowering", at("wide.wasm"), "-o", at("narrow.wasm"))
        except subprocess.CalledProcessError as error:
            sys.exit(f"library/module.py: {error}: {error.stderr.decode(errors='replace')[-2000:]}")
        os.makedirs(os.path.dirname(os.path.abspath(to)), exist_ok=True)
        shutil.copyfile(at("narrow.wasm"), to)


def main():
    kit = retarget.kit_of(len(sys.argv) == 3, __doc__)
    make(sys.argv[1], sys.argv[2], kit, EXPORTS)


if __name__ == "__main__":
    main()
