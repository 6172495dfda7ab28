"""Each call of the system that the nine commands make fails in turn: allocations, openings, reads, writes, and what gives an output its
name.

The commands run on the samples of crates/pocket/data, on four packets, in order or not, and a trial of three, over outputs that stood
before. A failed run must end with the number and the text of its fault, and leave what stood under each name, with fronts of the outputs of
the whole run in their parts; only if the second renaming fails is the first output whole. No part may be there where memory was wanting
before, and nothing at a name that is none of the command's. A short read or write must change nothing. For each output there must be one
renaming, one removal of its earlier part, one sync, which comes after the last write, and one change of its mode. A command whose
allocations are not seen, since they are not those of the C library, is told too. Allocations come before the outputs are opened, and are as
many for one and for a thousand packets."""

import os
import shutil
import subprocess
import tempfile
import unittest

from program import PROGRAM, SAMPLES, TOP, Folder
from rows import SWAPPED

# Each command: its words, and how many outputs it has. An input is a sample, or made below.
COMMANDS = {
    "compress": (["compress", "in=four.rec", "out=OUT", "bits=8", "apid=100", "robust=1", "plan=plan.csv"], 1),
    "play": (["play", "in=store", "out=OUT", "report=REPORT", "apid=100", "script=loss.csv"], 2),
    "restore": (["restore", "in=played", "out=OUT", "report=REPORT", "bits=8", "apid=100"], 2),
    "show": (["show", "in=played", "out=OUT", "bits=8", "apid=100"], 1),
    "trial": (["trial", "seed=0", "packets=3", "bits=8", "robust=1", "out=OUT"], 1),
    "late": (["late", "in=swapped", "out=OUT", "report=REPORT", "bits=8", "apid=100", "window=1"], 2),
    "multi": (["multi", "in=two.store", "out=OUT", "report=REPORT", "streams=two.csv"], 2),
    "table": (["table", "in=hk.rec", "out=OUT", "report=REPORT", "fields=hk.csv", "bits=64"], 2),
    "forecast": (["forecast", "out=OUT", "packets=1000", "robust=2", "plan=pass.csv", "script=fades.csv"], 1),
}

# The inputs that the output of a command becomes.
BECOMES = {"compress": ["store"], "play": ["played"]}

# The command whose memory depends on how many packets there are, since it holds them.
HOLDING = {"trial"}

KINDS = {"a": "allocation", "o": "opening", "r": "read", "w": "write", "n": "renaming", "u": "removal", "y": "sync", "m": "change of mode",
         "s": "short read", "t": "short write"}

STOOD = b"what stood before"

WANTED = {
    "a": {(5, "pocket: out of memory"), (1, "pocket: reading failed"), (1, "pocket: writing failed")},
    "o": {(1, "pocket: reading failed"), (1, "pocket: writing failed")},
    "r": {(1, "pocket: reading failed")},
    **dict.fromkeys("wnuym", {(1, "pocket: writing failed")}),
}


class Runner(Folder):
    """Runs the program in a folder, with one call failing or none."""

    def __init__(self, folder):
        super().__init__(folder)
        subprocess.run(["gcc", "-O1", "-shared", "-fPIC", "-o", self.at("faults.so"), os.path.join(TOP, "tests", "c", "faults.c"), "-ldl"], check=True)
        shutil.copytree(SAMPLES, folder, dirs_exist_ok=True)
        self.put("swapped", SWAPPED)

    def run(self, words, kind="", nth=0):
        """Its exit number and text, both outputs, and the letters of its calls."""
        for name in ("OUT", "REPORT", "OUT.part", "REPORT.part"):
            self.put(name, STOOD)
        env = dict(os.environ, LD_PRELOAD=self.at("faults.so"), FAULT_LOG=self.at("log"))
        if kind:
            env.update(FAULT_CALL=kind, FAULT_NTH=str(nth))
        ended = subprocess.run([PROGRAM] + words, cwd=self.folder, env=env, capture_output=True)
        answer = (ended.returncode, ended.stderr.decode().strip())
        outputs = [(self.get(name), self.get(name + ".part")) for name in ("OUT", "REPORT")]
        return answer, outputs, (self.get("log") or b"").decode()

    def each(self, packets=None):
        """Each command, its words, also for so many packets, and what comes of it, which later ones read."""
        for name, (words, _) in COMMANDS.items():
            words = [f"packets={packets}" if packets and word.startswith("packets=") else word for word in words]
            found = self.run(words)
            yield name, words, found
            for into in BECOMES.get(name, []) + ["swapped", "two.store"] * bool(packets and name == "compress"):
                self.put(into, found[1][0][0])


def is_right(name, part, whole, is_named):
    """Whether an output is as it was with a front of the whole one in its part, or whole with no part if it must have its name."""
    if is_named:
        return (name, part) == (whole, None)
    return name == STOOD and (part is None or part == STOOD or whole.startswith(part))


def judge(name, kind, nth, answer, outputs, whole):
    """What is wrong with a run in which a call failed, or None."""
    if kind in "st":
        return None if (answer, outputs) == ((0, ""), whole) else "a short call changed it"
    if answer not in WANTED[kind] or (name == "trial" and answer == (1, "pocket: reading failed")):
        return "an answer of another fault"
    if answer[0] == 5 and outputs != [(STOOD, STOOD)] * 2:
        return "an output after want of memory"
    own = COMMANDS[name][1]
    if outputs[own:] != [(STOOD, STOOD)] * (2 - own):
        return "another name was touched"
    named = [(kind, nth) == ("n", 2), False]
    if not all(is_right(*output, told, is_named) for output, (told, _), is_named in zip(outputs, whole, named)):
        return f"outputs that are not right: {outputs}"
    return None


def unlike(calls, outputs):
    """The kinds of calls that aren't made as often as they must be."""
    early = ["a sync before the last write"] * (calls.find("y") < calls.rfind("w"))
    return [KINDS[kind] for kind in "nuym" if calls.count(kind) != outputs] + [KINDS["a"]] * ("a" not in calls) + early


def after_opening(calls):
    """The allocations after the first read or write that comes after the last opening."""
    rest = calls[calls.rindex("o") + 1:]
    first = min((rest.find(c) for c in "rw" if c in rest), default=len(rest))
    return rest[first:].count("a")


@unittest.skipUnless(shutil.which("gcc"), "gcc is not there")
class Faults(unittest.TestCase):
    def setUp(self):
        self.runner = Runner(self.enterContext(tempfile.TemporaryDirectory(prefix="pocket-faults-")))

    def test_failing_calls(self):
        for name, words, (answer, whole, calls) in self.runner.each():
            with self.subTest(name):
                self.assertEqual((answer, unlike(calls, COMMANDS[name][1])), ((0, ""), []))
                wrong = []
                for kind, what in KINDS.items():
                    for nth in range(1, calls.count({"s": "r", "t": "w"}.get(kind, kind)) + 1):
                        got, left, _ = self.runner.run(words, kind, nth)
                        fault = judge(name, kind, nth, got, left, whole)
                        wrong += [f"{what} {nth}: {got}: {fault}"] if fault else []
                self.assertEqual(wrong, [])

    def test_allocations(self):
        """As many for 1,000 packets as for one, but of a trial, and none after the outputs are opened."""
        few, many = self.counted(1), self.counted(1000)
        for name in COMMANDS:
            with self.subTest(name):
                self.assertEqual((few[name][1], many[name][1]), (0, 0))
                if name not in HOLDING:
                    self.assertEqual(few[name], many[name])

    def counted(self, packets):
        """The allocations of each command for so many packets, and those after the outputs are opened."""
        recording = bytes((t // 7) % 256 for t in range(packets))
        self.runner.put("four.rec", recording)
        self.runner.put("hk.rec", b"".join(bytes([byte] * 8) for byte in recording))
        counts = {}
        for name, _, (answer, _, calls) in self.runner.each(packets):
            self.assertEqual(answer, (0, ""), name)
            counts[name] = calls.count("a"), after_opening(calls)
        return counts
