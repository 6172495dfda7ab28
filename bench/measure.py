"""Runs commands and tells what they took: processor time, memory, instructions; and prints tables as docs/BENCHMARK.md has them."""

import collections
import ctypes
import os
import platform
import re
import shutil
import subprocess
import sys
import time

# Seconds of the processor, the program's own and the system's for it together, and the greatest resident memory in kilobytes.
Used = collections.namedtuple("Used", "seconds memory")

# A shell starts a command, which waits until the shell has ended: what the system tells of a child's memory counts that of its parent,
# too, as it was started, and that of a shell is small.
STARTED = 'to="$1"; shift; exec 3<&0; { read go; exec "$@" > "$to" 3<&-; } <&3 & echo $!'

# A large memset or memcpy of the C library is one instruction that valgrind counts byte by byte: so it is not used.
PLAIN = ":".join(f"glibc.cpu.x86_rep_{which}_threshold=1000000000" for which in ("stosb", "movsb"))


def adopt_orphans():
    """A command whose parent has ended becomes a child of this script (prctl PR_SET_CHILD_SUBREAPER of Linux)."""
    ctypes.CDLL(None).prctl(36, 1, 0, 0, 0)


def used(words, output=os.devnull):
    """What one run of a command takes."""
    with subprocess.Popen(["sh", "-c", STARTED, "sh", output, *words], stdin=subprocess.PIPE, stdout=subprocess.PIPE) as shell:
        command = int(shell.stdout.readline())
        shell.wait()
    _, status, told = os.wait4(command, 0)
    if status:
        sys.exit(f"{' '.join(words)} ended with {os.waitstatus_to_exitcode(status)}")
    return Used(told.ru_utime + told.ru_stime, told.ru_maxrss)


def best(words, rounds, output=os.devnull):
    """Of several runs the least time, and the greatest memory."""
    runs = [used(words, output) for _ in range(rounds)]
    return Used(max(min(run.seconds for run in runs), 1e-6), max(run.memory for run in runs))


def can_count():
    """Whether instructions can be counted here."""
    return shutil.which("valgrind") is not None


def instructions(words):
    """The instructions of one run, those of the C library too, as valgrind counts them: the same in each run."""
    counted = ["valgrind", "--tool=callgrind", "--callgrind-out-file=/dev/null", *words]
    run = subprocess.run(counted, capture_output=True, text=True, env=dict(os.environ, GLIBC_TUNABLES=PLAIN))
    found = re.search(r"Collected : (\d+)", run.stderr)
    if run.returncode or not found:
        sys.exit(f"{' '.join(words)}\n{run.stderr[-500:]}")
    return int(found.group(1))


def for_one_more(count, driver, bits, recording, packets, flags):
    """The instructions of a send and of a receive by a driver (library.c): what one packet more of a recording costs, without the reading of its
    input. `count` gives the instructions of one run."""
    words = lambda times, what: [driver, str(bits), recording, str(times * packets), what, flags]
    inputs, send, receive = ((count(words(2, what)) - count(words(1, what))) / packets for what in ("inputs", "send", "receive"))
    return round(send - inputs), round(receive - send)


def sections(tool, path):
    """The bytes of text and constants in a file of objects, and those of its data, as a compiler's `size` tells them."""
    told = subprocess.run([tool, "-A", path], check=True, capture_output=True, text=True).stdout
    found = re.findall(r"^\.s?(text|rodata|data|bss)\S* +(\d+) ", told, re.M)
    of = lambda *names: sum(int(size) for name, size in found if name in names)
    return of("text", "rodata"), of("data", "bss")


def load():
    return f"{os.getloadavg()[0]:.1f}"


def told_by(script, how, before):
    """The line that docs/BENCHMARK.md has of a script: when it ran, on what machine, and the load before and after."""
    day, system = time.strftime("%Y-%m-%d"), f"{platform.system()} {platform.release()}"
    return f"\nMeasured by `{script}` on {day}{how}: {system}, {os.cpu_count()} processors, {processor()}, load {before} before and {load()} after."


def processor():
    """The name of the machine's processor."""
    with open("/proc/cpuinfo", encoding="utf-8") as file:
        names = re.findall(r"^model name\s*: (.*)$", file.read(), re.M)
    return names[0] if names else platform.processor() or platform.machine()


def number(value):
    """A number as tables have it: words as they are, whole numbers with commas, and of those below 100 two digits that count."""
    if not isinstance(value, float):
        return f"{value:,}" if isinstance(value, int) else value
    if abs(value) < 10:
        return f"{value:.2f}"
    return f"{value:.1f}" if abs(value) < 100 else f"{round(value):,}"


def show_table(title, heads, rows):
    """Prints a table, row by row as it is measured."""
    print(f"\n## {title}\n\n| {' | '.join(heads)} |\n|{'|'.join('---' for _ in heads)}|", flush=True)
    for row in rows:
        print(f"| {' | '.join(number(value) for value in row)} |", flush=True)
