#!/usr/bin/env python3
"""The commands that README.md and docs/OPERATING.md print say what is printed there. Run alone this prints each command with what it says.

A command is a line of an indented block that begins with '$ '; what it prints stands after it, up to the next command or the end of
the block. The commands of a page run one after the other in a copy of crates/pocket/data, with the program on the path."""

import os
import re
import shutil
import subprocess
import tempfile
import unittest

from program import PROGRAM, SAMPLES, TOP, text_of

PAGES = ["README.md", "docs/OPERATING.md"]
LIMIT = 120
# A command and the lines of its block after it, up to the next one.
COMMAND = re.compile(r"^    \$ (.*)\n((?:    (?!\$ ).*\n)*)", re.M)
# What a page says is typed before its commands, at the top of a clone where nothing is installed.
FIRST = re.compile(r"^    (export PYTHONPATH=.*)$", re.M)


def said(command, folder, path, first):
    """What a command prints, on either stream, after what is typed first at the top of the repository."""
    environment = {**os.environ, "PATH": f"{path}:{os.environ['PATH']}", "LC_ALL": "C", "PYTHONDONTWRITEBYTECODE": "1"}
    environment.pop("PYTHONPATH", None)
    ran = subprocess.run(["bash", "-c", f"{first}\ncd {folder} && {{ {command}\n}}"], cwd=TOP, env=environment, stdout=subprocess.PIPE,
                         stderr=subprocess.STDOUT, text=True, timeout=LIMIT)
    return ran.stdout.splitlines()


def ran(page):
    """The commands of a page, what each says and what it has to say, one after the other."""
    with tempfile.TemporaryDirectory(prefix="pocket-printed-") as room:
        text, folder, path = text_of(page), os.path.join(room, "data"), os.path.join(room, "bin")
        shutil.copytree(SAMPLES, folder)
        os.mkdir(path)
        shutil.copy(PROGRAM, os.path.join(path, "pocket"))
        first = (FIRST.search(text) or [None, ":"])[1]
        for command, printed in COMMAND.findall(text):
            yield command, said(command, folder, path, first), [line[4:] for line in printed.splitlines()]


class Printed(unittest.TestCase):
    def test_commands(self):
        for page in PAGES:
            rows = list(ran(page))
            self.assertTrue(rows, page)
            for command, found, wanted in rows:
                with self.subTest(page, command=command):
                    self.assertEqual(found, wanted)


if __name__ == "__main__":
    for command, found, _ in (row for page in PAGES for row in ran(page)):
        print("\n".join([f"    $ {command}", *[f"    {line}" for line in found]]))
