"""The fixture of tests that call the library: it is built once of the proved one, for C and for the Python module."""

import atexit
import contextlib
import functools
import io
import os
import shutil
import subprocess
import sys
import tempfile
import unittest
import warnings
from unittest import mock

from program import PROGRAM, TOP, Folder

# What is tried: the proved library, or another one that the environment names; POCKET_LIBRARY there names another one for Python alone.
PROVED = os.path.abspath(os.environ.get("PROVED", os.path.join(TOP, "crates", "pocket_c", "out", "libpocket_c.a")))
MODULE = os.path.join(TOP, "library", "python")
STRICT = ["-Wall", "-Wextra", "-pedantic", "-Werror"]
sys.path.insert(0, MODULE)
from pocket.tool import ToolError


def run(*words, given=b"", cwd=TOP, stderr=subprocess.PIPE, timeout=600, **how):
    """What a command writes; one that does not end with 0 is an error."""
    found = subprocess.run(words, input=given, stdout=subprocess.PIPE, stderr=stderr, cwd=cwd, timeout=timeout, **how)
    if found.returncode:
        raise RuntimeError(f"{words[0]} ended with {found.returncode}: {(found.stdout + (found.stderr or b''))[-1000:]!r}")
    return found.stdout


def need(*commands):
    """Skips the test, or the row, if a command isn't there."""
    missing = [command for command in commands if not shutil.which(command)]
    if missing:
        raise unittest.SkipTest(f"{', '.join(missing)} is not there")


@functools.cache
def built():
    """A folder with the library, for all tests of it."""
    room = Folder(tempfile.mkdtemp(prefix="pocket-library-"))
    atexit.register(shutil.rmtree, room.folder)
    if "POCKET_LIBRARY" not in os.environ:
        os.stat(PROVED)  # (else make would prove it)
        run("make", "-s", "lib", f"BUILD={room.folder}", f"PROVED={PROVED}")
    return room


class ToolFolder(Folder):
    """A folder, and the tools of the Python module over files in it."""

    def run(self, tool, *words):
        """What a tool writes, or the text of its refusal. What it tells is kept."""
        named = [f"{key}={self.at(value)}" if key in ("table", "report", "fields", "in", "script") else f"{key}={value}"
                 for key, _, value in (word.partition("=") for word in words)]
        told = io.StringIO()
        try:
            with contextlib.redirect_stderr(told):
                tool.run([*named, "out=" + self.at("out")])
            return self.get("out")
        except ToolError as error:
            return str(error).replace(self.folder + os.sep, "")
        finally:
            self.told = told.getvalue().replace(self.folder + os.sep, "")


class LibraryTest(unittest.TestCase):
    """Tests of the library and of the Python module, which load it and find the program."""

    @classmethod
    def setUpClass(cls):
        cls.room = built()
        # (a tool leaves it to the end of its process to close what it was refused)
        cls.enterClassContext(warnings.catch_warnings(action="ignore", category=ResourceWarning))
        cls.enterClassContext(mock.patch.dict(os.environ, {
            "PATH": os.path.dirname(PROGRAM) + os.pathsep + os.environ["PATH"], "PYTHONPATH": MODULE, "PYTHONDONTWRITEBYTECODE": "1",
            "POCKET_LIBRARY": os.environ.get("POCKET_LIBRARY", cls.room.at("libpocket.so"))}))

    def make(self, *words):
        return run("make", "-s", *words, f"BUILD={self.room.folder}", f"PROVED={PROVED}")

    def compiled(self, source, name, *flags, compiler="gcc", standard=("-std=c99",)):
        """A program over the library: one of tests/c, or another one."""
        need(compiler)
        own = os.path.join(TOP, "tests", "c", source)
        run(compiler, *standard, *STRICT, *flags, "-I" + os.path.join(TOP, "library"), own, "-x", "none", self.room.at("libpocket.a"), "-o", self.room.at(name))
        return self.room.at(name)

    def refuses(self, kind, text, call, *words):
        """A call raises an error of this kind, and no other, with this text, or with any if that is None."""
        with self.assertRaises(kind) as refusal:
            call(*words)
        self.assertEqual((type(refusal.exception), text or str(refusal.exception)), (kind, str(refusal.exception)))

    def passes(self, *words):
        """Runs a program of tests, which has to have some and to pass all."""
        self.assertRegex(run(*words), rb"(?m)^[1-9]\d* passed, 0 failed$")
