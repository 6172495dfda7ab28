#!/usr/bin/env python3
"""Joins the operator's page in one file: page/make.py MODULE [TO [CASES]] writes TO, or page/pocket.html.

MODULE is what library/module.py wrote. The page is page/page.html, with page/style.css, the module in base64, the page's script and that of its
worker in their places. Each script is joined out of ES modules by Debian's esbuild: the page's is page/views/start.js with all that it
imports, the worker's page/worker/worker.js. The page asks nobody for anything: its policy lets its script run, by its checksum, compile the
module, start the worker, and nothing else. CASES is a file of what the program did (.ci/browser.py writes it): then the page has it, and its
script is page/tests/start.js, which has the tests too.
"""

import base64
import hashlib
import pathlib
import re
import shutil
import string
import subprocess
import sys

sys.dont_write_bytecode = True
PAGE = pathlib.Path(__file__).resolve().parent
POLICY = ("default-src 'none'; script-src {} 'wasm-unsafe-eval'; worker-src blob:; style-src 'unsafe-inline'; img-src data: blob:; "
          "base-uri 'none'; form-action 'none'; require-trusted-types-for 'script'; trusted-types worker")


def version():
    """The program's version."""
    return re.search(r'^const VERSION: &str = "pocket (.*)";$', (PAGE.parent / "crates/pocket/src/main.rt").read_text("utf-8"), re.M)[1]


def script(name):
    """The whole script of a module and all that it imports."""
    if not shutil.which("esbuild"):
        sys.exit("page/make.py: Debian's esbuild, which joins the scripts, is not there")
    words = ["esbuild", f"{PAGE}/{name}", "--bundle", "--charset=utf8", "--loader:.csv=text", "--log-level=warning"]
    return subprocess.run(words, check=True, stdout=subprocess.PIPE, encoding="utf-8").stdout


def page_of(module, cases=None):
    """The whole page."""
    text = script("tests/start.js" if cases else "views/start.js")
    policy = POLICY.format("'sha256-{}'".format(base64.b64encode(hashlib.sha256(text.encode()).digest()).decode()))
    data = lambda name, told: f'<script type="text/plain" id="{name}">{told}</script>\n'
    found = data("module", base64.b64encode(pathlib.Path(module).read_bytes()).decode()) + data("worker", script("worker/worker.js"))
    if cases:
        found += data("cases", pathlib.Path(cases).read_text("utf-8").strip().replace("<", "\\u003c"))
    page, style = [(PAGE / name).read_text("utf-8") for name in ("page.html", "style.css")]
    return string.Template(page).substitute(policy=policy, style=style, data=found, script=text, version=version())


def main():
    if len(sys.argv) not in (2, 3, 4):
        sys.exit(__doc__)
    module, to, cases = (sys.argv[1:] + [None, None])[:3]
    pathlib.Path(to or PAGE / "pocket.html").write_text(page_of(module, cases), "utf-8")


if __name__ == "__main__":
    main()
