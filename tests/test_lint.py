"""Linters: pyflakes over all Python, mypy over the module of the library, shellcheck over what bash runs, and imports.py over the crates."""

import os
import pathlib
import shutil
import subprocess
import sys
import unittest

from program import TOP

ROOT = pathlib.Path(TOP)
PYTHON = [str(path.relative_to(ROOT)) for folder in (".ci", "bench", "pictures", "page", "library", "tests") for path in sorted((ROOT / folder).rglob("*.py"))] + ["setup.py"]
SHELL = [".ci/run", *(str(path.relative_to(ROOT)) for path in sorted((ROOT / "packaging").glob("*.sh"))), "completions/pocket.bash"]
# A linter: its command, what it is run with, and in which folder.
LINTERS = [("pyflakes3", PYTHON, "."), ("mypy", ["--strict", "--cache-dir", os.devnull, "pocket"], "library/python"),
           ("shellcheck", ["--shell=bash", *SHELL], "."), (sys.executable, ["tests/imports.py"], ".")]


class Lint(unittest.TestCase):
    def test_linters(self):
        for command, words, folder in LINTERS:
            with self.subTest(command):
                if not shutil.which(command):
                    self.skipTest("it is not there")
                ran = subprocess.run([command, *words], cwd=ROOT / folder, capture_output=True, text=True)
                self.assertEqual((ran.returncode, ran.stdout[-2000:] + ran.stderr[-2000:] if ran.returncode else ""), (0, ""))
