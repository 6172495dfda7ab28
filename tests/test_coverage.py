"""The lines of dist/pocket.c that no honest call reaches, each with its reason.

The file is built by gcc --coverage without optimization, and both_ends.c, states.c, worked.c, sentences.c and refused_memory.c of tests/c run
over it, each with what it has to give. gcov tells how often each line was reached. Lines one after another that were not are a stretch, which has to be one of those here,
told by their text without the numbers of variables and labels: so a new line without a test is seen, and so is a reason that is none any
more. `python3 tests/test_coverage.py` prints the shares, and each stretch that isn't listed."""

import itertools
import json
import os
import re
import tempfile
import unittest

from library import STRICT, run
from program import TOP

DIST = f"{TOP}/dist"
PROGRAMS = {"both_ends": ["3000"], "states": ["4000"], "worked": [], "sentences": [], "refused_memory": ["1", "64", "1024"]}
WRAPPED = ["-Wl,--wrap=malloc", "-Wl,--wrap=realloc", "-Wl,--wrap=free"]
MOST_LISTED = 0.03
# What fails only if memory was damaged: tests/c/upset.c and one_file.c reach some of it.
ANSWER = r"(?:B:;\n)?(?:j = [pl];\n|i = \(u32\)\(j\);\n|j = \dull;\n|i64_store\w*\(j, \w+, \d\);\n|call\(f\(m, last, j, j\)\);\n)*i = {}u;(?:\n[pl] = i;)?(?:\ngoto B(?:func)?;)?"
CHECKS = {
    "an access, a call or a frame that is wrong ends the function": r"trap:\nset_broken\(m\);\nreturn.*;",
    "a panic of the library, which is proved not to come": r"(?:B:;\n)?goto trap;",
    "the calls by hand, of a block that was damaged":
        r"(?:static [\w ]+ set_broken\(u8 \*m\) \{\nset_head\(m, BROKEN_AT, 1\);\n\}|set_broken\(m\);\nreturn (?:0|POCKET_BROKEN);|return (?:false|POCKET_BROKEN);|free\(memory\);)",
    "the calls by hand ask first whether a handle is open, of which kind, and how long a mask is": ANSWER.format("[2-6]"),
    "what was found to be a state is loaded": rf"B:;\ngoto trap;\n{ANSWER.format('252')}",
}
LISTED = {
    "no bytes are copied or filled in": r"return true;",
    "a switch names a value that is none there, as a desk in a handle": r"(?:case \d+|default): goto B;",
    "a vector has a word, and its last word has bytes": r"i = 1u;\nl = i;\ngoto B;|(?:j = 0ull;\nl = j;\n){2}goto B;|"
        r"B:;\nj = l;\nj = \d+ull;\nj \+= j;\ni = \(u32\)\(j\);\ni = 1u;\ni32_store16\(i, i, 0\);\n(?:[^;]+;\n?){19}",
    "a count whose word is not seen ahead is wrong or cut": r"j = 0ull;\nl = j;\ni = 0u;\nl = i;|B:;\n(?:i = 0u;\nl = i;\n?){2}",
    "bytes that are summed are there": r"i = 0u;\ngoto Bfunc;",
    "data that are kept have a word of bytes after their last one": r"B:;\nj = 0ull;(?:[^;]+;\n?)*i64_load8_u\(j, i, 0\);(?:[^;]+;\n?)*j = turn64\(j\);\n[lp] = j;",
    "the moves of a word are those of its mask, and each has room":
        r"j = l;\nj = 8ull;\nj \+= j;\nj = p;\ncall\(f\(m, last, j, j\)\);\nB:;|j = [lp];\nj = [lp];\ncall\(j = f\(m, last, j, j\)\);\n(?:[lp] = j;\ngoto B;|goto Bfunc;)",
    "bits that are not the wanted ones differ in one before their end": r"goto B;|B:;\ni = l;\ni = 2u;\ni \+= i;\nl = i;\ngoto B;|i = 0u;\nl = i;\ni = [01]u;\n[lp] = i;\ngoto B;|"
        r"i = l;\ni = 7u;\ni = i == i;\n(?:[^;]+;\}?\n)+B:;",
    "a first part that tells no change is not wide": r"j = l;\nj = \d+ull;\nj \+= j;\ni = \(u32\)\(j\);\ni32_load8_u_at\(i, a, 1\);(?:[^;]+;\n?)*call\(f\(m, last, j, j, j, j, j, j\)\);\ngoto B;",
}


def built(folder):
    """Builds the programs over the file in a folder, runs them there, and gives what gcov tells of each line."""
    at = lambda name: os.path.join(folder, name)
    run("gcc", "-std=c99", "--coverage", "-O0", "-c", f"{DIST}/pocket.c", "-o", at("pocket.o"), cwd=folder)
    for name in PROGRAMS:
        run("gcc", "-std=c99", *STRICT, "-O1", "-DPOCKET_NO_DESK", "-I", DIST, "-c", f"{TOP}/tests/c/{name}.c", "-o", at(f"{name}.o"))
        run("gcc", "--coverage", at(f"{name}.o"), at("pocket.o"), "-o", at(name), *(WRAPPED if name == "refused_memory" else []))


def told(folder):
    """How often each line was reached, by its number."""
    found = json.loads(run("gcov", "--json-format", "--stdout", "pocket.gcda", cwd=folder))
    counts = {}
    for line in next(it for it in found["files"] if it["file"].endswith("pocket.c"))["lines"]:
        counts[line["line_number"]] = counts.get(line["line_number"], 0) + line["count"]
    return counts


def plain(line):
    """A line without the numbers of variables, labels, pointers and functions."""
    line = re.sub(r"\b(?:code|state)_f\d+\b", "f", line.strip())
    return re.sub(r"\b([ijlpaBL])\d+\b", r"\1", line)


def stretches(lines, counts):
    """Those lines, one after another, that no call reached: each stretch the number of its first line, and its text. A label alone is none."""
    runs = [list(run) for is_reached, run in itertools.groupby(sorted(counts), lambda number: counts[number] > 0) if not is_reached]
    found = [(run[0], [plain(lines[number - 1]) for number in run]) for run in runs]
    return [(number, "\n".join(texts)) for number, texts in found if not all(re.fullmatch(r"[BL]\w*:;?", it) for it in texts)]


def reason(text):
    """The reason of a stretch, or None."""
    return next((name for name, form in {**CHECKS, **LISTED}.items() if re.fullmatch(form, text)), None)


def measured():
    """What the programs reach: the shares, the reasons that were found, and the stretches that have none."""
    with tempfile.TemporaryDirectory(prefix="pocket-coverage-") as folder, open(f"{DIST}/pocket.c", encoding="utf-8") as file:
        built(folder)
        for name, words in PROGRAMS.items():
            run(f"{folder}/{name}", *words, cwd=folder)
        counts = told(folder)
        found = [(number, text, reason(text)) for number, text in stretches(file.read().splitlines(), counts)]
    size = lambda chosen: sum(text.count("\n") + 1 for _, text, name in found if name in chosen)
    shares = {"lines": len(counts), "not reached": sum(1 for it in counts.values() if not it), "checks": size(CHECKS), "listed": size(LISTED)}
    return shares, {name for _, _, name in found}, [(number, text) for number, text, name in found if name is None]


class Coverage(unittest.TestCase):
    def test_each(self):
        if not os.path.isdir(DIST):
            self.skipTest("dist/, which is made before a hand-in, is not there")
        shares, reasons, unlisted = measured()
        for number, text in unlisted:
            with self.subTest("not reached", line=number):
                self.fail(text)
        with self.subTest("each reason is one"):
            self.assertEqual(reasons - {None}, {*CHECKS, *LISTED})
        with self.subTest("the share that is listed"):
            self.assertLess(shares["listed"], MOST_LISTED * shares["lines"])


if __name__ == "__main__":
    all_shares, _, left = measured()
    print(all_shares)
    for line, stretch in left:
        print(f"== {line}\n{stretch}")
