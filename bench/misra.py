#!/usr/bin/env python3
"""Counts, by rule of MISRA C:2012, what cppcheck's addon finds in the part of dist/pocket.c that is written by hand: bench/misra.py [DIST]. In
place of the generated functions stand their declarations. It takes Debian's cppcheck."""

import collections
import os
import re
import subprocess
import sys
import tempfile

TOP = os.path.dirname(os.path.dirname(os.path.abspath(__file__)))
MARKS = "/* ==== The generated part begins here", "/* ==== The generated part ends here. ==== */"


def by_hand(text):
    """The text of the file without its generated part."""
    before, rest = text.split(MARKS[0])
    made, after = rest.split(MARKS[1])
    return before + "\n".join(sorted(set(re.findall(r"^static [^\n]*\);$", made, re.M)))) + after


def main():
    dist = sys.argv[1] if sys.argv[1:] else f"{TOP}/dist"
    with tempfile.TemporaryDirectory() as folder, open(f"{dist}/pocket.c", encoding="utf-8") as file:
        with open(f"{folder}/hand.c", "w", encoding="utf-8") as hand:
            hand.write(by_hand(file.read()))
        words = ["cppcheck", "--quiet", "--addon=misra", "--std=c99", "-I", dist, f"{folder}/hand.c"]
        told = subprocess.run(words, capture_output=True, text=True, check=True).stderr
    found = collections.Counter(re.findall(r"misra-c2012-([\d.]+)", told))
    for rule, count in sorted(found.items(), key=lambda it: [int(part) for part in it[0].split(".")]):
        print(f"{rule:>6} {count}")


if __name__ == "__main__":
    main()
