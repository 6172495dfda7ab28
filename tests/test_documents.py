"""The documents and the program: the manual page, docs/OPERATING.md, README.md and the completions have the verbs, keys, ranges and exit
statuses of the program's help, which crates/pocket/src/main.rt has; the manual page is clean for mandoc; docs/CALLING.md shows the caller of
the crate round_trip; and the sources have what the documents name (names.py)."""

import os
import re
import shutil
import subprocess
import unittest

import names
from program import TOP, text_of

VERB = re.compile(r"pocket ([a-z]+) (.+)")
KEY = re.compile(r"(\[?)([a-z]+)=")
RANGE = re.compile(r"(\d+) to (\d+)")


def verbs_of_help(text):
    """The keys of each verb, and whether each may be left out."""
    found = (VERB.fullmatch(line) for line in text.splitlines())
    return {it[1]: {key: mark == "[" for mark, key in KEY.findall(it[2])} for it in found if it}


def verbs_of_page(page):
    """The same of the manual page: its synopsis has a block for each verb."""
    synopsis = page.split(".Sh SYNOPSIS")[1].split(".Sh ")[0]
    verbs = {}
    for block in synopsis.split("\n.Nm\n"):
        lines = [line for line in block.splitlines() if "Cm " in line]
        if lines:
            verb = lines[0].removeprefix(".Cm ").strip()
            verbs[verb] = {key: line.startswith(".Op") for line in lines[1:] for _, key in KEY.findall(line)}
    return verbs


def ranges_of_help(text):
    """The ranges of each key."""
    lines = text.split("left out:")[1].split("Exit status:")[0].splitlines()
    rows = (re.match(r"    (\S.*?)  +(.*)", line) for line in lines)
    return {row[1]: RANGE.findall(row[2]) for row in rows if row}


def ranges_of_page(page):
    """The same of the manual page: its list of keys has an item for each."""
    items = page.split("The keys are these.")[1].split("\n.El")[0].split("\n.It Cm ")[1:]
    found = {}
    for item in items:
        head, _, rest = item.partition("\n")
        names = ", ".join(name.strip().rstrip("=") for name in head.split(","))
        found[names] = RANGE.findall(rest.replace("\n", " "))
    return found


def day_lacks(day, verbs, ranges, exits):
    """What docs/OPERATING.md doesn't have of these."""
    for verb, keys in verbs.items():
        if f"**`{verb}`**" not in day:
            yield f"docs/OPERATING.md tells of no verb {verb}"
        yield from (f"docs/OPERATING.md names no key {key}" for key in keys if f"`{key}`" not in day and f" {key}=" not in day)
    for key, pairs in ranges.items():
        for low, high in pairs:
            # (a number of more than four digits has commas, and so may one of four)
            if not any(f"{low} to {form}" in day for form in [f"{int(high):,}", *[high] * (len(high) < 5)]):
                yield f"docs/OPERATING.md has no range {low} to {high} of {key}"
    yield from (f"docs/OPERATING.md has no exit status {it}" for it in exits if f"\n| {it} |" not in day)


def verbs_of_completions(text):
    """The keys of each verb that a completion has."""
    return {verb: {key.rstrip("=") for key in keys.split()} for verb, keys in re.findall(r'^ +\[?([a-z]+)\]?[ =]"([a-z= ]+)"$', text, re.M)}


class Documents(unittest.TestCase):
    @classmethod
    def setUpClass(cls):
        help_text = text_of("crates/pocket/src/main.rt").split('const HELP: &str = "\\\n')[1].split('";')[0]
        cls.page, cls.readme = text_of("docs/pocket.1"), text_of("README.md")
        cls.verbs, cls.ranges = verbs_of_help(help_text), ranges_of_help(help_text)
        cls.exits = re.findall(r"^    (\d)  ", help_text.split("Exit status:")[1], re.M)

    def test_manual_page(self):
        self.assertEqual(verbs_of_page(self.page), self.verbs)
        self.assertEqual(ranges_of_page(self.page), self.ranges)
        self.assertEqual(re.findall(r"^\.It (\d)$", self.page.split(".Sh EXIT STATUS")[1].split(".Sh ")[0], re.M), self.exits)

    @unittest.skipUnless(shutil.which("mandoc"), "mandoc is not there")
    def test_mandoc(self):
        ran = subprocess.run(["mandoc", "-T", "lint", "-W", "all", os.path.join(TOP, "docs", "pocket.1")], capture_output=True, text=True)
        self.assertEqual((ran.returncode, ran.stdout + ran.stderr), (0, ""))

    def test_operating(self):
        self.assertEqual(list(day_lacks(text_of("docs/OPERATING.md"), self.verbs, self.ranges, self.exits)), [])

    def test_readme(self):
        self.assertEqual([verb for verb in self.verbs if f"\n| `{verb}` |" not in self.readme], [])

    def test_completions(self):
        for name in ("completions/pocket.bash", "completions/_pocket"):
            with self.subTest(name):
                self.assertEqual(verbs_of_completions(text_of(name)), {verb: set(keys) for verb, keys in self.verbs.items()})

    def test_caller(self):
        shown = text_of("docs/CALLING.md").split("```rust\n")[1].split("```")[0]
        self.assertTrue(shown.strip() and shown in text_of("crates/round_trip/src/lib.rt"), "docs/CALLING.md shows another caller")

    def test_limits(self):
        """The limits in C, Python and the page are those of the definitions."""
        places = re.search(r"most_places = (\d+)", text_of("crates/bit_vectors/specs/Vectors.antt"))[1]
        apid = re.search(r"chosen : apid ≤ (\d+)", text_of("crates/packet_store/specs/SpacePackets.antt"))[1]
        for name, limit, before, after in (
                ("library/pocket.h", places, "#define POCKET_MOST_BITS ", "u "), ("library/python/pocket/calls.py", places, "\nMOST_BITS = ", "\n"),
                ("library/python/pocket/packets.py", str(int(apid) + 1), "IDLE, PERIOD, MOST_DATA = ", ","),
                ("page/views/store.js", f"{int(places):,}", "from 1 to ", ", digits alone"), ("page/views/store.js", apid, "from 0 to ", ", digits alone")):
            with self.subTest(name, limit=limit):
                self.assertIn(before + limit + after, text_of(name))

    def test_names(self):
        self.assertEqual(names.unknown(), [])
