#!/usr/bin/env python3
"""Puts what run.py, library.py, one_file.py, search.py and fleet.py printed into docs/BENCHMARK.md: cat tables.md .. fleet.md | python3 bench/paste.py

Each table takes the place of the one under its heading there, and each line 'Measured by ..' of the one of its script. What was
measured by --quick is refused.
"""

import os
import re
import sys

PAGE = os.path.join(os.path.dirname(os.path.dirname(os.path.abspath(__file__))), "docs", "BENCHMARK.md")
TABLE = r"(?:\|.*\n)+"


def put(page, pattern, text, what):
    """The page with the one place that has this form, after what stands before it, as this text."""
    page, times = re.subn(rf"(?m){pattern}", lambda it: it[1] + text, page, count=1)
    if times != 1:
        sys.exit(f"docs/BENCHMARK.md has no {what}")
    return page


def main():
    told = sys.stdin.read()
    if "--quick" in told:
        sys.exit("figures of --quick are not for the page")
    with open(PAGE, encoding="utf-8") as file:
        page = file.read()
    for title, table in re.findall(rf"(?m)^## (.+)\n\n({TABLE})", told):
        page = put(page, rf"(^## {re.escape(title)}\n(?:(?!## |\|).*\n)*){TABLE}", table, f"table under '{title}'")
    for line, script in re.findall(r"(?m)^(Measured by `(\S+)`.*)$", told):
        page = put(page, rf"(^)Measured by `{re.escape(script)}`.*$", line, f"line 'Measured by {script}'")
    with open(PAGE, "w", encoding="utf-8") as file:
        file.write(page)


if __name__ == "__main__":
    main()
