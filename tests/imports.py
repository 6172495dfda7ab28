#!/usr/bin/env python3
"""Imports of the .rt and .antt files that nothing uses, and names that the specs of two crates define in two senses. Run alone it prints each;
`--write` takes the imports out."""

import pathlib
import re
import sys

CRATES = pathlib.Path(__file__).resolve().parent.parent / "crates"
LISTED = re.compile(r"(?P<begin>\s*(?P<ghost>ghost )?use [\w.:]+?(?:\.|::)\{)(?P<names>[^{}]*)(?P<end>\};?)\s*$")
ALONE = re.compile(r"\s*(?P<ghost>ghost )?use [\w.:]+?(?P<name>\w+)(?: as (?P<other>\w+))?;?\s*$")
COMMENT = re.compile(r"\s*(///|//|--)")
# Traits, whose methods alone are named.
TRAITS = {"Abort", "IsTerminal", "MetadataExt", "Read", "TableRow", "Write"}
DEFINED = re.compile(r"(?:abbrev |unfoldable )?pub (?:record |data )?([A-Za-z][\w-]*) ?(?:[:({]|$)")
# What several crates say in the same sense, each of its own type, chain or surface.
OF_EACH = set("""
    Advances AfterUnread AreColumns AreJudged HasTakenNothing IsNearNext IsUnread IsWithinLimits Owes StandsFor Stops Waits
    all_numbers arrival_of end_row ending_at first_mask header_row last_rows nothing_read numbered_from rest_work
    stop_by stop_of stopped_at walk_over walked worked
""".split())


def is_used(name, text):
    """Whether a text has a name, or each part of an operator; a `do` block has `>>=`."""
    if "◌" in name:
        return name == "◌>>=◌" and re.search(r"\bdo$", text, re.M) or all(part in text for part in name.split("◌") if part)
    return re.search(rf"(?<![\w-]){re.escape(name)}(?!\w)", text) is not None


def unused(path):
    """The imports of a file that nothing uses, each with the number of its line."""
    lines = path.read_text().split("\n")
    found = []
    for at, line in enumerate(lines):
        listed, alone = LISTED.match(line), ALONE.match(line)
        if not (listed or alone) or "Goals" in line:
            continue
        names = [name.strip() for name in listed["names"].split(",")] if listed else [alone["other"] or alone["name"]]
        rest = "\n".join(other for place, other in enumerate(lines) if place != at and not COMMENT.match(other))
        found += [(at, name) for name in names if name and name not in ("self", *TRAITS) and not is_used(name.split(" as ")[-1], rest)]
    return found


def without(path, found):
    """Takes imports out of a file."""
    lines = path.read_text().split("\n")
    for at, name in found:
        listed = LISTED.match(lines[at])
        names = [it.strip() for it in listed["names"].split(",") if it.strip() != name] if listed else []
        lines[at] = f"{listed['begin']}{', '.join(names)}{listed['end']}" if names else None
    path.write_text("\n".join(line for line in lines if line is not None))


def defined():
    """The names that specs define, each with the crates that do."""
    crates = {}
    for path in CRATES.glob("*/specs/**/*.antt"):
        for line in path.read_text().split("\n"):
            if name := DEFINED.match(line):
                crates.setdefault(name[1], set()).add(path.relative_to(CRATES).parts[0])
    return crates


def main():
    files = sorted(path for kind in ("*.rt", "*.antt") for path in CRATES.rglob(kind) if "out" not in path.relative_to(CRATES).parts)
    failed = False
    for path in files:
        found = unused(path)
        if found and "--write" in sys.argv[1:]:
            without(path, found)
        for at, name in found:
            print(f"import {path.relative_to(CRATES)}:{at + 1}: nothing uses {name}")
        failed |= bool(found)
    twice = {name: crates for name, crates in defined().items() if len(crates) > 1 and name not in OF_EACH}
    for name, crates in sorted(twice.items()):
        print(f"name {name}: defined in the specs of {', '.join(sorted(crates))}")
    sys.exit(1 if failed or twice else 0)


if __name__ == "__main__":
    main()
