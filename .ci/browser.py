#!/usr/bin/env python3
"""Builds the operator's page, and tries it in Debian's browsers, without a window: Chromium, Firefox, and WebKitGTK, of Safari's family.

At the top, after the gate's proofs: .ci/browser.py. It makes the page (`make page`), and a second one that has its tests (page/tests) and
what the program crates/pocket/out/pocket does with the commands of .ci/browser_cases.py: each command byte for byte, and what the page says
of itself. Then keys are pressed in the page as it ships, and what it says of the packet under them is held to the program's forecast. It is
given files and hands (.ci/browser_ways.py) and looked at in windows of several sizes (.ci/browser_looks.py), and Debian's eslint reads its
scripts. What is not there of Debian's packages (.ci/needs.py) is skipped with what needs it, by name; and so is what a browser can't be told
(CAN_NOT). Its last line is 'N passed, M failed, K skipped'.

.ci/browser.py BROWSER .. tries these browsers alone.
"""

import contextlib
import json
import os
import pathlib
import re
import shutil
import subprocess
import sys
import tempfile
import unittest

sys.dont_write_bytecode = True
TOP = os.path.dirname(os.path.dirname(os.path.abspath(__file__)))
sys.path += [f"{TOP}/page", f"{TOP}/tests"]
import browser_cases
import browser_files
import browser_looks
import browser_ways
import make
import tests
from webdriver import NEEDS, Browser

PROGRAM = f"{TOP}/crates/pocket/out/pocket"
PAGE, MODULE = f"{TOP}/page/pocket.html", f"{TOP}/page/out/pocket.wasm"
MAKERS = {"wasm-opt": "binaryen", "esbuild": "esbuild"}
LIMIT = 600  # seconds for all tests of the page
MOST_BYTES = 800_000
# What a driver can't do with its browser.
CAN_NOT = {"firefox": {"fingers": "its driver's fingers scroll nothing", "media": "its driver sets neither paper nor forced colours"},
           "webkit": {"wheel": "its driver turns no wheel", "fingers": "its driver has no fingers", "saved": "it asks where",
                      "media": "its driver sets neither paper nor forced colours"}}
# Debian's eslint finds its modules here, whatever node there is.
NODE_PATH = "/usr/share/nodejs:/usr/lib/nodejs"


def skip_without(packages):
    """Skips what needs these commands, each of a package of Debian (.ci/needs.py), if one is not there."""
    lacks = [package for command, package in packages.items() if not shutil.which(command)]
    if lacks:
        raise unittest.SkipTest(f"Debian's {', '.join(lacks)} is not there")


def build(folder):
    """The page as it ships, and the one with the cases in a folder."""
    made = subprocess.run(["make", "-s", "page"], cwd=TOP, capture_output=True, text=True)
    assert made.returncode == 0, (made.stdout + made.stderr)[-600:]
    found, cases = os.path.join(folder, "tests.html"), os.path.join(folder, "cases.json")
    pathlib.Path(cases).write_text(json.dumps(browser_cases.cases(PROGRAM)), "ascii")
    subprocess.run([sys.executable, f"{TOP}/page/make.py", MODULE, found, cases], check=True)
    return found


def own_lines(browser, page):
    """What the page's own tests say, each a line that begins with 'ok' or 'FAILED'."""
    browser.open(f"file://{page}#tests")
    told = "(document.getElementById('tests')?.textContent ?? '')"
    text = browser.wait(f"/\\d+ passed, \\d+ failed\\s*$/.test({told}) && {told}", LIMIT)
    assert text, f"the tests did not end: {browser.value(told)[-900:]!r}, {browser.value('document.body.innerText')[:200]!r}"
    return text.strip().splitlines()[:-1]


def tell_shipped(browser, *_):
    """The page as it ships: what it says under the keys and in its foot, and what it asks for."""
    assert os.path.getsize(PAGE) <= MOST_BYTES, f"it has {os.path.getsize(PAGE)} bytes"
    address = "#packets=30&robust=1&plan=20,20,1,fr&script=drop,3,3,1%0Adrop,10,13,1"
    browser.open(f"file://{PAGE}{address}")
    said = "document.getElementById('forecast-strip')?.getAttribute('aria-valuetext')"
    is_begun = browser.wait(f"document.querySelector('main')?.hidden === false && {said}", 60)
    assert is_begun, f"it says nothing: {browser.value('document.body.innerText')[:300]!r}"
    inputs = {"p": b"20,20,1,fr", "s": b"drop,3,3,1\ndrop,10,13,1"}
    forecast = browser_cases.ran(PROGRAM, "forecast out=y packets=30 robust=1 plan=p script=s".split(), inputs)[2]["y"].decode()
    states = {number: state for first, last, state in re.findall(r"^(\d+),(\d+),(sure|open|lost)$", forecast, re.M) for number in range(int(first), int(last) + 1)}
    browser.value("document.getElementById('forecast-strip').focus()")
    browser.press("Home")
    for number, state in sorted(states.items()):
        text = browser.wait(f"(/^packet {number}\\b/i.test({said}) || null) && {said}", 30)
        assert text and re.search(rf"\b{state}\b", text), f"it says {text or browser.value(said)!r} of packet {number}, which is {state}"
        browser.press("ArrowRight")
    refused = browser.value("fetch('data:,x').then(() => false, () => true)")
    foot = browser.value("document.querySelector('footer').innerText")
    is_told = all(words in foot for words in (make.version(), "compared", "not proved"))
    assert refused and is_told, f"a request is refused: {refused}; its foot says {foot!r}"
    asked = browser.value("performance.getEntriesByType('resource').map(it => it.name).filter(it => !/^(data|blob):/.test(it))")
    assert not asked, f"it asked for {asked}"


# Each way of trying the page, by its name.
WAYS = {name.removeprefix("tell_"): way for given in (globals(), vars(browser_ways), vars(browser_looks)) for name, way in given.items()
        if name.startswith("tell_")}


class Page(unittest.TestCase):
    """The page in each browser, each way of trying it a row of its own."""

    @classmethod
    def setUpClass(cls):
        skip_without(MAKERS)
        folder = cls.enterClassContext(tempfile.TemporaryDirectory(prefix="pocket-browser-"))
        cls.own, cls.files = build(folder), browser_files.files(PROGRAM, folder)

    def try_browser(self, name):
        skip_without(NEEDS[name])
        with contextlib.closing(Browser(name)) as browser:
            with self.subTest("the page's own tests"):
                for line in own_lines(browser, self.own):
                    with self.subTest(line):
                        self.assertTrue(line.startswith("ok "))
            for way, tell in WAYS.items():
                with self.subTest(way):
                    if way in CAN_NOT.get(name, {}):
                        self.skipTest(CAN_NOT[name][way])
                    tell(browser, PAGE, self.files)

    def test_chromium(self):
        self.try_browser("chromium")

    def test_firefox(self):
        self.try_browser("firefox")

    def test_webkit(self):
        self.try_browser("webkit")


class Scripts(unittest.TestCase):
    def test_lint(self):
        """Debian's eslint finds nothing in the page's scripts."""
        skip_without({"eslint": "eslint"})
        words = ["eslint", "--no-eslintrc", "-c", "page/eslint.json", "-f", "unix", "page"]
        done = subprocess.run(words, cwd=TOP, capture_output=True, text=True, env={**os.environ, "NODE_PATH": NODE_PATH})
        self.assertEqual(done.returncode, 0, (done.stdout + done.stderr)[-1500:])


def main():
    names = sys.argv[1:] or list(NEEDS)
    if not set(names) <= set(NEEDS):
        sys.exit(__doc__)
    tests.run(unittest.TestSuite([*(Page(f"test_{name}") for name in names), Scripts("test_lint")]))


if __name__ == "__main__":
    main()
