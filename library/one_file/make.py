#!/usr/bin/env python3
"""Makes the C files that any compiler takes: library/one_file/make.py MODULE FOLDER writes FOLDER/pocket.c, the calls of a sender and a
receiver, FOLDER/pocket.h, and FOLDER/pocket-program.c, the program.

MODULE is the module that library/retarget.py kept as the library was proved and built for x86-64 (crates/pocket_c/out/module.bc). The
program's helps are those that the proved one, crates/pocket/out/pocket, prints.
library/module.py turns it to WebAssembly, for the calls without what left_out.py leaves out, Debian's wasm2c (the package wabt) turns that to C, and translate.py and joined.py that to the generated part,
which is joined with what is written by hand: machine.c, calls.c, state.c, null_checks.c and the library's checked.c for the calls; machine.c, allocator.c, files.c and program.c for the program.
So the files are compiled another way: compared (tests/test_one_file.py), not proved. Two runs give the same bytes.
"""

import os
import pathlib
import re
import shutil
import subprocess
import sys
import tempfile

sys.dont_write_bytecode = True
HERE = os.path.dirname(os.path.abspath(__file__))
TOP = os.path.dirname(os.path.dirname(HERE))
sys.path.insert(0, f"{TOP}/library")
import left_out
import module
import retarget
import translate

SENDER = ["pocket_sender_open", "pocket_sender_reset", "pocket_send", "pocket_sent"]
RECEIVER = ["pocket_receiver_open", "pocket_receiver_reset", "pocket_receive", "pocket_counts"]
STATES = ["pocket_save", "pocket_load"]
DESK = ["pocket_desk_open", "pocket_put", "pocket_word", "pocket_run", "pocket_get"]
PROGRAM, PROGRAM_STACK = f"{TOP}/crates/pocket/out/pocket", 1 << 20
BEGIN = "/* ==== The generated part begins here: made from the proved library's module by wasm2c and library/one_file. ==== */"
END = "/* ==== The generated part ends here. ==== */"
# Warnings that the statements of a stack machine give, and no other text.
QUIET = """#if defined(__clang__)
#pragma clang diagnostic push
#pragma clang diagnostic ignored "-Wall"
#pragma clang diagnostic ignored "-Wextra"
#pragma clang diagnostic ignored "-Wunused-label"
#elif defined(__GNUC__)
#pragma GCC diagnostic push
#pragma GCC diagnostic ignored "-Wunused-label"
#pragma GCC diagnostic ignored "-Wunused-variable"
#pragma GCC diagnostic ignored "-Wunused-but-set-variable"
#pragma GCC diagnostic ignored "-Wunused-parameter"
#pragma GCC diagnostic ignored "-Wunused-function"
#pragma GCC diagnostic ignored "-Wmaybe-uninitialized"
#endif"""
LOUD = """#if defined(__clang__)
#pragma clang diagnostic pop
#elif defined(__GNUC__)
#pragma GCC diagnostic pop
#endif"""


def text_of(name, folder=HERE):
    return pathlib.Path(folder, name).read_text("utf-8")


def checked():
    """The checks of null of the library, and those of the calls that the file alone has."""
    text = text_of("library/checked.c", TOP).replace('#define POCKET_PROVED_NAMES\n#include "pocket.h"\n', "")
    return f"{text}\n{text_of('null_checks.c')}"


def version():
    return re.search(r'^const VERSION: &str = "pocket (.*)";$', text_of("crates/pocket/src/main.rt", TOP), re.M)[1]


def module_of(kept, exports, kit, **how):
    """What wasm2c writes of the module with these calls."""
    tool = shutil.which("wasm2c")
    if not tool:
        sys.exit("library/one_file/make.py: the package wabt, which has wasm2c, is not there")
    with tempfile.TemporaryDirectory(prefix="pocket-one-file-") as folder:
        wasm, made = os.path.join(folder, "pocket.wasm"), os.path.join(folder, "pocket.c")
        module.make(kept, wasm, kit, exports, for_c=True, **how)
        subprocess.run([tool, wasm, "-n", "pocket", "-o", made], check=True)
        return text_of(made)


def machine():
    """The text of machine.c with all accesses, by the names that wasm2c gives them: each of an address, and of a place in the memory."""
    made = ""
    for wide, bits in ((wide, bits) for wide in (32, 64) for bits in (8, 16, 32, 64) if bits <= wide):
        size = "" if bits == wide else bits
        for sign, cast in (("", ""),) if bits == wide else (("_u", ""), ("_s", f"(s{wide})(s{bits})")):
            made += f"#define i{wide}_load{size}{sign}(to, address, by) LOAD({bits}, (u{wide}){cast}, to, address, by)\n"
            made += f"#define i{wide}_load{size}{sign}_at(to, at, by) to = (u{wide}){cast}get{bits}((at) + (by))\n"
        made += f"#define i{wide}_store{size}(value, address, by) STORE({bits}, value, address, by)\n"
        made += f"#define i{wide}_store{size}_at(value, at, by) put{bits}((at) + (by), (u{bits})(value))\n"
    return text_of("machine.c").replace("/* @accesses@ */\n", made)


def front(head, code, **more):
    """The front of a file: its head, the numbers of a module and more of them, the constants of the module as an array, and the machine."""
    numbers = {"STACK_TOP": f"{code.top}u", "HEAP_BASE": f"{code.heap}u", "CONSTANT_BYTES": len(code.data), **more}
    named = "".join(f"#define {name} {value}\n" for name, value in numbers.items())
    lines = ",\n".join(", ".join(str(it) for it in code.data[at:at + 24]) for at in range(0, len(code.data), 24))
    constants = f"static const uint8_t constants[] = {{\n{lines}\n}};\n" if code.data else ""
    return f"{text_of(head).replace('@VERSION@', version())}\n{named}\n{constants}{machine()}\n"


def joined(code, names, guard=None):
    """The prototypes and bodies of these functions of a module, left out if the guard is defined."""
    functions = [it for name, it in code.functions.items() if name in names]
    heads = "".join(f"{it.head()};\n" for it in functions)
    text = heads + "\n" + "\n".join(it.text for it in functions)
    return f"#ifndef {guard}\n{text}#endif\n" if guard else text


def generated(code, states):
    """The functions of the calls: those of both, of a sender alone, of a receiver alone, and of states, which reach the caller's memory too."""
    send, receive, kept = code.reached(SENDER), code.reached(RECEIVER), states.reached(STATES)
    return (joined(code, send & receive) + joined(code, send - receive, "POCKET_NO_SENDER") + joined(code, receive - send, "POCKET_NO_RECEIVER")
            + text_of("anywhere.c") + joined(states, kept, "POCKET_NO_STATES"))


def quiet(text):
    return f"{BEGIN}\n{QUIET}\n{text}{LOUD}\n{END}\n"


def check_stack(deepest):
    """Ends if pocket.h tells a stack that is too small, or a quarter of a kilobyte too large."""
    told = int(re.search(r"^#define POCKET_STACK_BYTES (\d+)u$", text_of("library/pocket.h", TOP), re.M)[1])
    if not deepest <= told < deepest + 256:
        sys.exit(f"library/pocket.h: POCKET_STACK_BYTES has to be {-(-deepest // 64) * 64}u: the deepest stack is {deepest} bytes")


def calls(kept, kit):
    """The text of pocket.c."""
    text = module_of(kept, SENDER + RECEIVER + STATES, kit, left_out=left_out.of)
    code, states = translate.module_of(text, "code", joins=True), translate.module_of(text, "state", joins=False)
    deepest = code.deepest(SENDER + RECEIVER + STATES)
    check_stack(deepest)
    before, after = text_of("calls.c").split("/* @generated@ */\n")
    begin = front("head.c", code, DEEPEST=deepest, STACK_BYTES="POCKET_STACK_BYTES")
    return f"{begin}{before}\n{quiet(generated(code, states))}\n{after}\n{text_of('state.c')}\n{checked()}"


def helps():
    """What the program's help prints, as arrays of lines: all of it, and that of each verb."""
    if not os.path.exists(PROGRAM):
        sys.exit(f"library/one_file/make.py: {PROGRAM}, which tells its helps, is not there")
    printed = lambda *words: subprocess.run([PROGRAM, *words, "--help"], check=True, capture_output=True, text=True).stdout.splitlines()
    texts = {"": printed()}
    texts.update((verb, printed(verb)) for verb in re.findall(r"^pocket (\w+)", "\n".join(texts[""]), re.M))
    told = lambda it: '"' + it.replace("\\", "\\\\").replace('"', '\\"') + '"'
    array = lambda verb, text: [f"static const char *const help_of_{verb or 'all'}[] = {{", *(f"    {told(it)}," for it in text), "    NULL", "};", ""]
    made = "".join("\n".join(array(verb, text)) for verb, text in texts.items())
    rows = "".join(f'    {{ "{verb}", help_of_{verb or "all"} }},\n' for verb in texts)
    return f"{made}static const struct {{ const char *verb; const char *const *lines; }} helps[] = {{\n{rows}}};\n"


def program(kept, kit):
    """The text of pocket-program.c."""
    code = translate.module_of(module_of(kept, DESK, kit), "code", joins=True)
    begin = front("program_head.c", code, STACK_BYTES=f"{PROGRAM_STACK}u", VERSION=f'"{version()}"')
    text = joined(code, code.reached(DESK))
    return begin + "\n".join([text_of("allocator.c"), quiet(text), helps(), text_of("files.c"), text_of("program.c")])


def main():
    kit = retarget.kit_of(len(sys.argv) == 3, __doc__)
    kept, folder = sys.argv[1:]
    os.makedirs(folder, exist_ok=True)
    try:
        made = {"pocket.c": calls(kept, kit), "pocket-program.c": program(kept, kit)}
    except translate.OtherForm as other:
        sys.exit(f"library/one_file/make.py: wasm2c wrote what is not known here: {other}")
    for name, text in made.items():
        pathlib.Path(folder, name).write_text(text, "utf-8")
    shutil.copyfile(f"{TOP}/library/pocket.h", os.path.join(folder, "pocket.h"))


if __name__ == "__main__":
    main()
