"""The one C file of the library beside the proved library of x86-64, on this processor and on others, byte for byte.

`make dist` makes the files anew; if dist/ is committed, it has to be the same. Then tests/c/driver.c runs over pocket.c, as it runs over the
proved library: on this processor, on others under qemu-user, and on a Cortex-M3, LEON3 and a RISC-V of 32 bits without an operating system,
with static memory. What is printed has to be the same, states too, and each goes on from those of the library. tests/c/one_file.c tries what the file alone has, and upset.c what it does if a bit of its memory is
turned. Two builds in which the order of bytes is wrong with the big end first have to fail. The program of the file does the rows of the
program's tables as the proved one does: all but those of --version and of commands that are refused after they wrote something, which leaves a
part there, and nothing here."""

import atexit
import concurrent.futures
import filecmp
import functools
import itertools
import os
import random
import shutil
import subprocess
import sys
import tempfile
import unittest

from driver import SEED, all_tests, by_native, differing, long_data, ran, states
from library import STRICT, need, run
from program import PROGRAM, TOP, Folder, ProgramTest, text_of
from rows import DATA, TEXTS, VERBS, WORDS
from test_files import FILES

DIST = f"{TOP}/dist"
MADE = ["pocket.c", "pocket.h", "pocket-program.c", "pocket.html"]
DRIVER = f"{TOP}/tests/c/driver.c"
BOARD, LEON3, RISCV32 = (f"{TOP}/library/examples/{name}" for name in ("cortex-m", "leon3", "riscv32"))
# A machine without an operating system: QEMU's loader puts what the driver reads into its memory (library/examples/leon3/loaded.c).
LOADER = "-display none -monitor none -serial stdio -device loader,file=INPUT,addr=0x{},force-raw=on -device loader,addr=0x{},data=LENGTH,data-len=4 -kernel"
QEMU_BOARD = f"qemu-system-arm -M mps2-an385 -semihosting-config enable=on,target=native {LOADER.format('21000004', '21000000')}".split()
QEMU_LEON3 = f"qemu-system-sparc -M leon3_generic {LOADER.format('42000000', '41FFFFFC')}".split()
QEMU_RISCV32 = f"qemu-system-riscv32 -M virt -bios none {LOADER.format('82000000', '81FFFFFC')}".split()
MACHINE = ["-Os", "-ffreestanding", "-DPOCKET_NO_HEAP", "-DPOCKET_BARE", "-DDRIVER_ROOM=(1<<17)", "-I", LEON3, "-I", f"{TOP}/tests/c", f"{LEON3}/loaded.c",
           f"{TOP}/tests/c/bare.c"]
NO_LIBC = ["-nostdlib", "-DPOCKET_NO_LIBC", f"{LEON3}/helpers.c"]
SANITIZERS = ["-fsanitize=address,undefined", "-fno-sanitize-recover=all"]
VALGRIND = ["valgrind", "-q", "--error-exitcode=9", "--leak-check=full"]
# What the driver is compiled by, with which flags, and what runs it.
TARGETS = {
    "x86-64, gcc": ("gcc", ["-O2"], []),
    "x86-64, clang": ("clang", ["-O1"], []),
    "x86-64, unchecked": ("gcc", ["-O1", "-DPOCKET_UNCHECKED"], []),
    "x86-64, freestanding": ("gcc", ["-O2", "-ffreestanding", "-DPOCKET_NO_LIBC"], []),
    "x86-64, the sanitizers": ("gcc", ["-O1", "-g", *SANITIZERS], []),
    "i386": ("i686-linux-gnu-gcc", ["-Os", "-static"], ["qemu-i386"]),
    "armhf": ("arm-linux-gnueabihf-gcc", ["-Os", "-static"], ["qemu-arm"]),
    "powerpc": ("powerpc-linux-gnu-gcc", ["-Os", "-static"], ["qemu-ppc"]),
    "s390x": ("s390x-linux-gnu-gcc", ["-Os", "-static"], ["qemu-s390x"]),
    "sparc64": ("sparc64-linux-gnu-gcc", ["-Os", "-static"], ["qemu-sparc64"]),
    "sparc, by the instructions of LEON3": ("sparc64-linux-gnu-gcc", ["-Os", "-static", "-m32", "-mcpu=leon3"], ["qemu-sparc32plus"]),
    "riscv64": ("riscv64-linux-gnu-gcc", ["-Os", "-static"], ["qemu-riscv64"]),
    "aarch64": ("aarch64-linux-gnu-gcc", ["-Os", "-static"], ["qemu-aarch64"]),
    "Cortex-M3": ("arm-none-eabi-gcc", ["-mcpu=cortex-m3", "-mthumb", *MACHINE, "-nostartfiles", "-T", f"{BOARD}/link.ld", f"{BOARD}/start.c",
                                        f"{BOARD}/board.c"], QEMU_BOARD),
    "LEON3, a machine": ("sparc64-linux-gnu-gcc", ["-m32", "-mcpu=leon3", "-fno-pic", "-fno-pie", "-static", "-no-pie", "-z", "noexecstack",
                                                   *MACHINE, *NO_LIBC, "-T", f"{LEON3}/link.ld", f"{LEON3}/start.S", f"{LEON3}/board.c"], QEMU_LEON3),
    "RISC-V of 32 bits, a machine": ("riscv64-unknown-elf-gcc", ["-march=rv32imac", "-mabi=ilp32", "-mcmodel=medany", *MACHINE, *NO_LIBC, "-T",
                                                                 f"{RISCV32}/link.ld", f"{RISCV32}/start.S", f"{RISCV32}/board.c"], QEMU_RISCV32),
}
# What the file asks for: of the C library, by flags, of which one is what compilers take without any; which calls some of these leave out; and
# of the compiler's own functions on a processor without an operating system.
LIBC = {"memcpy", "memmove", "memset"}
HOSTED = [(["-O1"], LIBC | {"malloc", "free"}), (["-std=gnu17"], LIBC | {"malloc", "free"}), (["-O0", "-DPOCKET_NO_HEAP"], LIBC), (["-O0", "-DPOCKET_NO_RECEIVER", "-DPOCKET_NO_HEAP"], LIBC),
          (["-O0", "-DPOCKET_NO_SENDER", "-DPOCKET_NO_HEAP"], LIBC), (["-O0", "-DPOCKET_UNCHECKED"], LIBC | {"malloc", "free"}),
          *((["-O0", "-DPOCKET_NO_STATES", *flags, "-DPOCKET_NO_HEAP"], LIBC) for flags in ([], ["-DPOCKET_NO_SENDER"], ["-DPOCKET_NO_RECEIVER"]))]
LEFT_OUT = {"-DPOCKET_NO_SENDER": "send", "-DPOCKET_NO_RECEIVER": "receive", "-DPOCKET_NO_STATES": "save"}
FREESTANDING = ["-ffreestanding", "-DPOCKET_NO_HEAP", "-DPOCKET_NO_LIBC"]
BARE = {
    "Cortex-M3": (["arm-none-eabi-gcc", "-mcpu=cortex-m3", "-mthumb"], {"__ctzdi2"}),
    "LEON3": (["sparc64-linux-gnu-gcc", "-m32", "-mcpu=leon3"],
              {"__ashldi3", "__lshrdi3", "__bswapsi2", "__bswapdi2", "__clzsi2", "__clzdi2", "__ctzsi2", "__ctzdi2"}),
    "RISC-V of 32 bits": (["riscv64-unknown-elf-gcc", "-march=rv32imac", "-mabi=ilp32"],
                          {"__ashldi3", "__lshrdi3", "__bswapdi2", "__bswapsi2", "__clzsi2", "__clzdi2", "__ctzsi2", "__ctzdi2"}),
    "RISC-V of 64 bits": (["riscv64-linux-gnu-gcc"], {"__bswapsi2", "__bswapdi2", "__clzdi2", "__ctzdi2"}),
    "x86-64": (["gcc"], set()),
}
# Builds in which the big end is wrong: a text of the file, and what stands in its place.
BACKWARDS = "m + last + SLACK - ({} - BASE) - count"
WRONG = {"memory.copy backwards, with the big end first": ("memmove(out, in, count);", f"memmove(out == place(to) ? {BACKWARDS.format('to')} : out, "
                                                           f"in == place(from) ? {BACKWARDS.format('from')} : in, count);"),
         "words in the order of the processor": ("__builtin_bswap##bits(value)", "(value)")}


class Room(Folder):
    """The folder of a run, with the files made anew, and what the proved library prints of each test: the lines of one run after the other."""

    def __init__(self, folder):
        super().__init__(folder)
        self.made = self.at("dist") if all(map(shutil.which, ("wasm2c", "wasm-opt", "esbuild"))) else DIST
        if self.made != DIST:
            run("make", "-s", "dist", f"DIST={self.made}", timeout=1800)
        draw, (whole, parts) = random.Random(SEED), states(random.Random(68))
        self.tests = {**all_tests(draw), "more data than a packet has": (long_data(draw), None), "states": (whole, None)}
        self.wanted = by_native(self.at("native"), self.tests)
        resumed, self.wanted["states that go on"] = parts(self.wanted["states"])
        self.tests["states that go on"] = resumed, None

    def driver(self, name, made):
        """The driver of a target over a pocket.c."""
        compiler, flags, emulator = TARGETS[name]
        need(compiler, *emulator[:1])
        to = self.at(f"{os.path.basename(made)}-{name}".replace(", ", "-").replace(" ", "-"))
        run(compiler, "-std=c99", "-Wall", "-Wextra", "-Werror", "-DPOCKET_ONE_FILE", *flags, "-I", made, "-o", to, DRIVER, f"{made}/pocket.c")
        return [*emulator, to]


def over(words, path):
    """A command for a machine, over what a file has."""
    return [word.replace("INPUT", path).replace("LENGTH", str(os.path.getsize(path))) for word in words]


def printed(words, lines):
    if "-kernel" not in words:
        return ran(words, lines)
    with tempfile.NamedTemporaryFile(prefix="pocket-lines-") as file:
        file.writelines(f"{line}\n".encode() for line in lines)
        file.flush()
        return run(*over(words, file.name)).decode().splitlines()


def compares(room, name):
    """How a target's driver prints something else than the library, or None. All is one run."""
    words = room.driver(name, room.made)
    tests = [(test, lines, room.wanted[test]) for test, (lines, _) in room.tests.items()]
    found = printed(words, [line for _, lines, _ in tests for line in lines])
    for test, _, wanted in tests:
        fault = differing(found[:len(wanted)], wanted)
        if fault:
            return f"{test}: {fault}"
        found = found[len(wanted):]
    return f"{len(found)} lines too many" if found else None


def same_as_committed(room):
    """Whether dist/ has what `make dist` makes."""
    if not os.path.isdir(DIST):
        raise unittest.SkipTest("dist/, which is made before a hand-in, is not there")
    other = [name for name in MADE if not os.path.exists(f"{DIST}/{name}") or not filecmp.cmp(f"{DIST}/{name}", f"{room.made}/{name}", shallow=False)]
    return f"{other} are others than the sources make: make dist" if other else None


def symbols(compiler, flags, made, to):
    """The names that an object of the file asks for, and those of its calls."""
    run(*compiler, "-std=c99", *STRICT, *flags, "-c", f"{made}/pocket.c", "-o", to)
    told = [line.split() for line in run("nm", to).decode().splitlines()]
    return {words[1] for words in told if words[0] == "U"} - {"_GLOBAL_OFFSET_TABLE_"}, {words[2] for words in told if words[1] == "T"}


def asks(room, compiler, flags, needs):
    """What the file asks for beside these names, or which calls it has that flags leave out, or None. No compiler complains."""
    need(compiler[0])
    asked, calls = symbols(compiler, flags, room.made, room.at(f"{'-'.join([*compiler, *flags])}.o"))
    left_out = [word for flag, word in LEFT_OUT.items() if flag in flags]
    return f"it asks for {sorted(asked - needs)}" if asked - needs else next((f"it has {call}" for call in sorted(calls) if any(word in call for word in left_out)), None)


def fails(room, source, flags, *words, compiler="gcc", before=()):
    """How a program of tests/c fails, which has to pass some and to fail none, or None."""
    need(compiler, *before[:1])
    to = room.at("-".join([source, compiler, *words[:1]]))
    run(compiler, "-std=c99", *STRICT, *flags, "-I", room.made, "-o", to, f"{TOP}/tests/c/{source}.c")
    found = run(*before, to, *words).decode().splitlines()[-1]
    return None if found.endswith(" passed, 0 failed") and not found.startswith("0 ") else found


def wrong(room, name):
    """Whether a build with a wrong order of bytes fails on powerpc."""
    text, instead = WRONG[name]
    source = text_of("pocket.c", room.made)
    if source.count(text) != 1:
        return f"the file has {source.count(text)} times {text!r}"
    folder = room.at(name.split(" ")[0])
    os.makedirs(folder)
    shutil.copy(f"{room.made}/pocket.h", folder)
    Folder(folder).put("pocket.c", source.replace(text, instead))
    words = room.driver("powerpc", folder)
    lines = "".join(line + "\n" for lines, _ in room.tests.values() for line in lines).encode()
    found = subprocess.run(words, input=lines, capture_output=True, timeout=600).stdout.decode(errors="replace").splitlines()
    return "it gives what is right" if found == [line for lines in room.wanted.values() for line in lines] else None


def board(room, example, compiler, machine):
    """Whether the loop on board of an example makes the packets that `compress` makes."""
    need("make", compiler, machine[0])
    folder, data = room.at(f"board-{machine[0]}"), f"{TOP}/crates/pocket/data/hk.rec"
    os.makedirs(folder)
    run("make", "-s", "-C", example, f"POCKET={room.made}", f"OUT={folder}")
    told = run(*over(machine, data), f"{folder}/onboard.elf")
    Folder(folder).put("plan", "20,4294967295,20,p\n30,30,1,fr\n")
    wanted = run(PROGRAM, "compress", f"in={data}", "out=-", "bits=64", "apid=100", "robust=2", f"plan={folder}/plan")
    return None if told == wanted else "its packets are others"


def from_python(room):
    """Tries test_states.py, from Python over a shared library that is made of the file."""
    to = room.at("libpocket.so")
    run("gcc", "-std=c99", "-O1", "-fPIC", "-shared", "-o", to, f"{room.made}/pocket.c")
    run(sys.executable, "-m", "unittest", "test_states", cwd=f"{TOP}/tests", env=dict(os.environ, POCKET_LIBRARY=to), timeout=100)


def fuzzed_states(room):
    """Tries bytes that libFuzzer makes of how the file's branches go, as a state."""
    need("clang")
    to = room.at("fuzzed-states")
    run("clang", "-O1", "-g", "-fsanitize=fuzzer,address,undefined", "-fno-sanitize-recover=all", "-DPOCKET_FUZZED", "-I", room.made, "-o", to,
        f"{TOP}/tests/c/states.c", f"{room.made}/pocket.c")
    run(to, "-runs=60000", "-seed=1", "-max_len=600", cwd=room.folder)


def tries(room):
    """All that is tried beside the making: each with its name, and a function that gives what is wrong, or None."""
    yield "dist/ is what the sources make", lambda: same_as_committed(room)
    for compiler, (flags, needs) in itertools.product(("gcc", "clang"), HOSTED):
        yield f"what it asks for: {compiler}, {' '.join(flags)}", lambda c=compiler, f=flags, n=needs: asks(room, [c], f, n)
    for name in TARGETS:
        yield f"{name}: as the library", lambda n=name: compares(room, n)
    file, powerpc = f"{room.made}/pocket.c", {"compiler": TARGETS["powerpc"][0], "before": TARGETS["powerpc"][2]}
    yield "the file's own", lambda: fails(room, "one_file", ["-O1"], "all")
    yield "the file's own, by the sanitizers", lambda: fails(room, "one_file", ["-O1", "-g", *SANITIZERS], "some", compiler="clang")
    yield "the file's own, under valgrind", lambda: fails(room, "one_file", ["-O1", "-g"], "some", before=VALGRIND)
    yield "the file's own, on powerpc", lambda: fails(room, "one_file", ["-O1", "-static"], "some", **powerpc)
    for name in WRONG:
        yield f"a wrong build fails: {name}", lambda n=name: wrong(room, n)
    for (name, (compiler, needs)), level in itertools.product(BARE.items(), ("-Os", "-O3")):
        yield f"what it asks for: {name}, {level}", lambda c=compiler, l=level, n=needs: asks(room, c, [l, *FREESTANDING], n)
    checked = ["-O1", "-g", *SANITIZERS, file]
    yield "each bit of a block turned", lambda: fails(room, "upset", [*checked, "-D_POSIX_C_SOURCE=200809L"], "1", "13", "64", "1024")
    yield "the helpers for 64 bits", lambda: fails(room, "helpers", ["-O1"])
    for name, *how in (("Cortex-M", BOARD, "arm-none-eabi-gcc", QEMU_BOARD), ("LEON3", LEON3, "sparc64-linux-gnu-gcc", QEMU_LEON3),
                       ("RISC-V of 32 bits", RISCV32, "riscv64-unknown-elf-gcc", QEMU_RISCV32)):
        yield f"the example for {name}", lambda h=how: board(room, *h)
    yield "states from Python", lambda: from_python(room)
    yield "any bytes as a state, by the sanitizers", lambda: fails(room, "states", checked, "20000")
    yield "any bytes as a state, by libFuzzer", lambda: fuzzed_states(room)


@functools.cache
def made():
    """The folder of all tests of the file."""
    folder = tempfile.mkdtemp(prefix="pocket-one-file-")
    atexit.register(shutil.rmtree, folder)
    os.chmod(folder, 0o755)
    return Room(folder)


class OneFile(unittest.TestCase):
    def test_each(self):
        room = made()
        with self.subTest("the files are made"):
            need(*["wasm2c", "wasm-opt", "esbuild"] * (room.made == DIST))
        with concurrent.futures.ThreadPoolExecutor(os.cpu_count()) as at_once:
            found = [(name, at_once.submit(attempt)) for name, attempt in tries(room)]
        for name, fault in found:
            with self.subTest(name):
                self.assertIsNone(fault.result())


def leaves_more(row):
    """Whether a command that is refused leaves more than stood before, or prints some of its output."""
    left = any(content is not None and row["before"].get(name) != content for name, content in row["after"].items())
    return row["status"] != 0 and (left or bool(row["out"]))


class Program(ProgramTest):
    def compares(self, rows, compiler, flags, emulator=()):
        """Runs these rows by the program of the file."""
        need(compiler, *emulator)
        program = made().at(f"program-{compiler}")
        run(compiler, "-std=c99", "-Wall", "-Wextra", *flags, "-o", program, f"{made().made}/pocket-program.c")
        self.user += map(shutil.which, emulator)
        self.program = program
        same = [row for row in rows if not leaves_more(row) and row["words"] not in (["--version"], ["-V"])]
        self.assertGreater(len(same), 50)
        self.each(same)

    def test_native(self):
        self.compares(VERBS + WORDS + TEXTS + DATA + FILES, "gcc", ["-O0"])

    def test_powerpc(self):
        self.compares(VERBS + WORDS, TARGETS["powerpc"][0], ["-O0", "-static"], TARGETS["powerpc"][2])
