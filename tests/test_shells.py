"""The completions of bash and zsh in a terminal: a line is typed, then a tab, and what then stands in the line is compared."""

import os
import pty
import re
import select
import shutil
import tempfile
import time
import unittest

from program import TOP

LIMIT = 30
OTHERS = "/usr/share/bash-completion/bash_completion"
# What is typed, and what stands in the line after a tab. The file recording.bin is there.
LINES = [("pocket co", "pocket compress "), ("pocket fore", "pocket forecast "), ("pocket --v", "pocket --version "), ("pocket show bi", "pocket show bits="),
         ("pocket show bits=8 bi", "pocket show bits=8 bi"), ("pocket show in=rec", "pocket show in=recording.bin "),
         ("pocket nothing ap", "pocket nothing ap"), ("true; pocket co", "true; pocket compress ")]
SPACED = [("  pocket co", "  pocket compress "), ("pocket  show  ap", "pocket  show  apid="), ("x=1 pocket show ap", "x=1 pocket show apid=")]
AFTER = [(f"{words} {line}", f"{words} {found}") for words in ("sudo", "nice", "for i in 1; do", "for i in 1; do sudo") for line, found in (LINES[0], LINES[3])]
# A key, ctrl-t, that tells the line and empties it.
BASH = ["bind 'set bell-style none'", "tell() { printf '<%s>\\n' \"$READLINE_LINE\"; READLINE_LINE=; }", "bind -x '\"\\C-t\": tell'"]
ZSH = ["unsetopt prompt_sp beep", "tell() { print -r -- \"<$BUFFER>\"; BUFFER= }", "zle -N tell", "bindkey '^T' tell"]


class Terminal:
    """A shell in a terminal."""

    def __init__(self, command, folder):
        self.child, self.end = pty.fork()
        if self.child == 0:
            os.chdir(folder)
            os.environ.update(TERM="dumb", HOME=folder, LC_ALL="C.UTF-8")
            os.execvp(command[0], command)
        self.shown = ""

    def type(self, text, until):
        """Types a text, and gives what is shown until there is a match."""
        os.write(self.end, text.encode())
        last, part = time.monotonic() + LIMIT, ""
        while not re.search(until, part) and time.monotonic() < last:
            if select.select([self.end], [], [], 0.1)[0]:
                part += os.read(self.end, 4096).decode("utf-8", "replace")
        self.shown += part
        return re.search(until, part)

    def close(self):
        os.close(self.end)
        os.waitpid(self.child, 0)


class Shells(unittest.TestCase):
    def completes(self, command, begun, lines):
        folder = self.enterContext(tempfile.TemporaryDirectory(prefix="pocket-shells-"))
        open(f"{folder}/recording.bin", "w").close()
        shell = Terminal(command, folder)
        self.addCleanup(shell.close)
        for line in begun:
            shell.type(line + "\n", "\n")
        shell.type("echo rea''dy\n", "ready")
        for line, wanted in lines:
            with self.subTest(line):
                found = shell.type(f"{line}\t\x14", r"<([^>\r\n]*)>")
                self.assertEqual(found and found[1], wanted)
        self.assertNotIn("bad array subscript", shell.shown)

    def in_bash(self, more, lines):
        self.completes(["bash", "--norc", "--noprofile", "-i"], [*more, f"source {TOP}/completions/pocket.bash", *BASH], lines)

    def test_bash(self):
        self.in_bash([], LINES + SPACED)

    @unittest.skipUnless(os.path.exists(OTHERS), "bash-completion is not there")
    def test_bash_after_other_commands(self):
        """After other commands (sudo, nice), which Debian's bash-completion completes."""
        self.in_bash([f"source {OTHERS}"], LINES + SPACED + AFTER)

    @unittest.skipUnless(shutil.which("zsh"), "zsh is not there")
    def test_zsh(self):
        begun = [f"fpath=({TOP}/completions $fpath)", "autoload -U compinit && compinit -u -D", *ZSH]
        self.completes(["zsh", "-f", "-i"], begun, LINES)
