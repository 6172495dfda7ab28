"""Tells what the gate takes of the processors: for each crate its proof, that of its tests, and each of its edits.

    python3 bench/gate.py                 runs `rt ci --anew`, which proves and tries everything
    python3 bench/gate.py rt ci NAME..    runs this command, and tells what it came to do

The prover's processes are looked at four times a second, so that a process which ends is counted up to a quarter of a second short;
the last line is what the system counted of the whole command, and the time by the clock. A proof that is kept from an earlier run
takes no time, and has no row."""

import collections
import os
import re
import resource
import subprocess
import sys
import time

TICKS = os.sysconf("SC_CLK_TCK")
# How often the prover's processes are looked at, in seconds.
PAUSE = 0.25
# The folder in which `rt ci` tries a crate's edits, each over a folder of its own that has the edit's number.
TRIED = re.compile(r"/rt-edits-[^/]+/(seed|\d+)$")


class Process(collections.namedtuple("Process", "number started parent words seconds")):
    """A process of the prover: its words, and the processor time of it and of those of its children that have ended."""

    @classmethod
    def of(cls, number):
        """What the system tells of a process, or None if it has ended or isn't the prover."""
        try:
            with open(f"/proc/{number}/cmdline", "rb") as file:
                words = file.read().decode(errors="replace").split("\0")
            with open(f"/proc/{number}/stat") as file:
                fields = file.read().rpartition(") ")[2].split()
        except OSError:
            return None
        if not words[0].endswith("/rattle"):
            return None
        return cls(number, fields[19], fields[1], words, sum(map(int, fields[11:15])) / TICKS)


def is_in(session, number):
    """Whether a process that may have ended is one of this session."""
    try:
        return os.getsid(int(number)) == session
    except OSError:
        return False


def processes(session):
    """The prover's processes of a session that no other one of them started, each with the time of those that it started."""
    numbers = [number for number in filter(str.isdigit, os.listdir("/proc")) if is_in(session, number)]
    found = [process for number in numbers if (process := Process.of(number))]
    numbers = {process.number for process in found}
    first = [process for process in found if process.parent not in numbers]
    below = collections.Counter()
    for process in found:
        below[process.parent] += process.seconds
    return [process._replace(seconds=process.seconds + below[process.number]) for process in first]


def after(words, name):
    """The word after this one, or nothing."""
    return words[words.index(name) + 1] if name in words[:-1] else ""


def edits(crate):
    """The names of a crate's edits, in the order of their numbers."""
    folder = f"crates/{crate}/must-fail"
    return sorted(name for name in os.listdir(folder) if name.endswith(".edit")) if os.path.isdir(folder) else []


def part(process):
    """What a process of the prover does: a crate, and its proof, its tests or one of its edits."""
    crate = after(process.words, "--crate-name")
    tried = TRIED.search(after(process.words, "--incremental"))
    if tried is None:
        return crate, "tests" if "--test" in process.words else "proof"
    if tried[1] == "seed":
        return crate, "proof before its edits"
    names = edits(crate)
    return crate, names[int(tried[1])] if int(tried[1]) < len(names) else "edit"


def watched(command):
    """Runs a command, and gives the processor time of each part of it by its crate, and its exit number."""
    seen = {}
    with subprocess.Popen(command, start_new_session=True) as running:
        while running.poll() is None:
            seen.update({(it.number, it.started): (part(it), it.seconds) for it in processes(running.pid)})
            time.sleep(PAUSE)
    parts = collections.defaultdict(collections.Counter)
    for (crate, name), seconds in seen.values():
        parts[crate][name] += seconds
    return parts, running.returncode


def main():
    command = sys.argv[1:] or ["rt", "ci", "--anew"]
    begun = time.monotonic()
    parts, status = watched(command)
    for crate, times in sorted(parts.items(), key=lambda item: -sum(item[1].values())):
        tried = sum(seconds for name, seconds in times.items() if name.endswith(".edit"))
        print(f"{crate}: {sum(times.values()) / 60:.1f} minutes, {tried / 60:.1f} of them its edits")
        for name, seconds in times.most_common():
            print(f"  {seconds:7.1f}  {name}")
    used = resource.getrusage(resource.RUSAGE_CHILDREN)
    print(f"{(used.ru_utime + used.ru_stime) / 60:.1f} processor minutes, {(time.monotonic() - begun) / 60:.1f} by the clock")
    sys.exit(status)


if __name__ == "__main__":
    main()
