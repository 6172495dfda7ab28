"""What becomes of the files of the tools of `python3 -m pocket`, of outputs that can't be written, of an interrupt, and of wrong words: each is
one line and a status, and a name keeps what it had."""

import os
import resource
import signal
import subprocess
import sys
import tempfile
import time

from library import LibraryTest
from program import SIGNALS, Folder, unread_pipe, wait_for

TOOLS = ("advise", "frames", "merge", "numbers", "pack")
STORE = bytes.fromhex("0064C000000385B8D600 0064C0010003424B8D62 0064C003000144C0")
TEXTS = {"fields": "field,0,8,u,mode\n", "table": "t,mode\n0,1\n1,2\n", "report": "first,last,cause,value\n2,2,lost,0\nend,2,2,0\n", "x": STORE}
# Each tool as it is called, and what it reads as standard input.
CALLS = {"frames": (["frames", "length=34", "report=/dev/null"], bytes.fromhex("155415071800") + STORE), "merge": (["merge", "x", "x", "near=0"], b""),
         "numbers": (["numbers", "table=table", "report=report"], b""), "pack": (["pack", "fields=fields", "bits=8", "in=table"], b"")}


class Tools(LibraryTest):
    def setUp(self):
        self.room = Folder(self.enterContext(tempfile.TemporaryDirectory(prefix="pocket-tools-")))
        for name, text in TEXTS.items():
            self.room.put(name, text)

    def there(self):
        return sorted(name for name in os.listdir(self.room.folder) if name not in TEXTS)

    def run_tool(self, words, given=b"", shell=None, flags=(), env=(), **how):
        """How a call ended, and what it wrote and told."""
        call = [sys.executable, *flags, "-m", "pocket", *words]
        if shell:
            call = ["sh", "-c", f'"$@" {shell}', "sh", *call]
        how = {"stdout": subprocess.PIPE, "stderr": subprocess.PIPE, **how}
        ran = subprocess.run(call, cwd=self.room.folder, input=given, env={**os.environ, **dict(env)}, timeout=60, **how)
        return ran.returncode, ran.stdout or b"", ran.stderr.decode(errors="replace")

    def refuses(self, words, text="", status=1, **how):
        """A call ends with a status and one line, which says this."""
        code, _, told = self.run_tool(words, **how)
        self.assertTrue(code == status and told.count("\n") == 1 and told.endswith("\n") and text in told and "Traceback" not in told, (words, code, told))

    def test_outputs(self):
        """Each tool writes the same into a file as to standard output; what is refused or fails leaves the name as it was."""
        for tool, (words, given) in CALLS.items():
            with self.subTest(tool):
                self.outputs(tool, words, given)

    def outputs(self, tool, words, given):
        status, wanted, _ = self.run_tool(words, given)
        self.assertTrue(status == 0 and wanted)
        self.assertEqual(self.run_tool([*words, "out=made"], given)[:2], (0, b""))
        self.assertEqual((self.room.get("made"), self.there()), (wanted, ["made"]))
        os.chmod(self.room.at("made"), 0o640)
        self.assertEqual(self.run_tool([*words, "out=./made"], given)[0], 0)
        self.assertEqual(os.stat(self.room.at("made")).st_mode & 0o777, 0o640)
        os.unlink(self.room.at("made"))
        self.assertEqual((self.run_tool([*words, "out=/dev/null"], given)[:2], self.there()), ((0, b""), []))
        self.refuses([*words, "out=/dev/full"], f"pocket {tool}: writing failed: No space left on device", given=given)
        self.refuses(words, f"pocket {tool}: writing failed: No space left on device", given=given, shell="> /dev/full")
        # (so Python tells, as later ones do always, what fails in what is left to be closed)
        self.refuses([*words, "out=/dev/full"], "writing failed", given=given, flags=("-X", "dev", "-W", "ignore"))
        self.refuses(words, "writing failed", given=given, shell="> /dev/full", flags=("-X", "dev", "-W", "ignore"))
        self.refuses(words, "standard output is closed", given=given, shell=">&-")
        self.refuses([*words, "out=none/made"], "none/made: No such file or directory", given=given)
        with unread_pipe() as pipe:
            self.refuses(words, "writing failed: Broken pipe", given=given, stdout=pipe)

    def test_inputs(self):
        """An output that is an input, by whatever name, is refused, and stays."""
        merge = ["merge", "x", "x", "near=0"]
        os.symlink("x", self.room.at("link"))
        os.link(self.room.at("x"), self.room.at("hard"))
        for name in ("x", "./x", "link", "hard"):
            self.refuses([*merge, f"out={name}"], "is read or written under another name")
        self.refuses([*merge, "out=y", "report=x"])
        self.refuses(["merge", "-", "x", "near=0", "out=x"], "is read or written under another name", shell="< hard")
        self.refuses([*merge, "out=y", "report=./y"])
        self.refuses([*merge, "out=y", "report=y.part"])
        self.refuses([*merge, "report=-"], "standard output is one output")
        self.assertEqual(self.room.get("x"), STORE)

    def test_standard_output(self):
        """A file that is standard output isn't written under its name too; and standard output has more names than one."""
        merge = ["merge", "x", "x", "near=0"]
        for name, shell in (("both", "> both"), ("./both", "> both"), ("both", ">> both.part")):
            self.refuses([*merge, f"report={name}"], "is read or written under another name", shell=shell)
            self.refuses([*merge, f"out={name}", "report=-"], "is read or written under another name", shell=shell)
        for name in ("/dev/stdout", "/dev/fd/1", "/proc/self/fd/1"):
            self.refuses([*merge, f"report={name}"], "standard output is one output", shell="> both")
            self.refuses([*merge, "out=both", f"report={name}"], "is read or written under another name", shell="> both")
            self.assertEqual(self.run_tool([*merge, f"out={name}"]), (0, STORE, ""))

    def test_pipes(self):
        """A pipe, by a name of /dev/fd, is written as it is."""
        self.assertEqual(self.run_tool(["merge", "x", "x", "near=0", "out=/dev/fd/3"], shell="3>&1 > /dev/null | cat")[1:], (STORE, ""))
        self.assertIn(b"another place", self.run_tool(["merge", "x", "x", "near=16384", "report=/dev/fd/3"], shell="3>&1 > /dev/null | cat")[1])

    def test_refused(self):
        """What is refused leaves what stood under a name."""
        self.room.put("old", "old")
        self.room.put("bad", STORE[:-1])
        self.refuses(["merge", "x", "bad", "near=0", "out=old"], "bad: the packet at byte 20 is cut")
        os.unlink(self.room.at("old.part"))
        os.symlink("old", self.room.at("old.part"))
        self.refuses(["merge", "x", "x", "near=0", "out=old"], "is no regular file")
        self.assertEqual(self.room.get("old"), b"old")
        os.symlink("nothing", self.room.at("link"))
        self.refuses(["merge", "x", "x", "near=0", "out=link"], "link is a link to nothing")

    def test_unread(self):
        self.refuses(["merge", "x", "none"], "none: No such file or directory")
        self.refuses(["merge", "x", "/"], "/: Is a directory")
        self.refuses(["frames", "length=33"], "-: ", shell="<&-")
        for words in (["bits=8", "apid=100"], CALLS["frames"][0], CALLS["pack"][0][:3]):
            self.refuses(words, ": -: Input/output error", shell="< /proc/self/mem")
        self.refuses(["numbers", "table=-", "report=-"], "standard input is one file")
        self.assertEqual(self.there(), [])

    def test_told(self):
        """What is told goes to standard error, or into a report, and never among what is written."""
        words, given = ["frames", "length=34"], CALLS["frames"][1]
        self.assertEqual(self.run_tool([*words, "report=told", "out=made"], given), (0, b"", ""))
        self.assertEqual((self.room.get("told").count(b"\n"), self.there()), (2, ["made", "told"]))
        self.assertEqual(self.run_tool(words, given, "2>&-")[:2], (0, self.room.get("made")))
        self.assertEqual(self.run_tool(["merge", "x", "none"], shell="2> /dev/full")[::2], (1, ""))
        self.assertEqual(self.run_tool(["merge", "x", "x", "near=16384"])[0], 3, "another place")
        self.refuses(["frames", "length=9"], status=4, given=given)

    def test_not_blocking(self):
        """Standard input in non-blocking mode ends where it ends, and not where it has no bytes yet."""
        for words, wanted in ((["merge", "-", "x", "near=0"], STORE), (["bits=8", "apid=100"], b"0 written b0\n1 written b1\n2-2 lost\n3 written b1\nend 3 3 0\n")):
            reading, writing = os.pipe()
            os.set_blocking(reading, False)
            os.write(writing, STORE[:10])
            run = subprocess.Popen([sys.executable, "-m", "pocket", *words], cwd=self.room.folder, stdin=reading, stdout=subprocess.PIPE, stderr=subprocess.PIPE)
            os.close(reading)
            time.sleep(0.5)
            os.write(writing, STORE[10:])
            os.close(writing)
            self.assertEqual((*run.communicate(timeout=60), run.returncode), (wanted, b"", 0))

    def test_at_once(self):
        """`show` tells of each packet as it arrives, also into a pipe."""
        run = subprocess.Popen([sys.executable, "-m", "pocket", "bits=8", "apid=100"], stdin=subprocess.PIPE, stdout=subprocess.PIPE, bufsize=0)
        found = []
        for packet in (STORE[:10], STORE[10:20], STORE[20:]):
            run.stdin.write(packet)
            found.append(run.stdout.readline())
        self.assertEqual((found, *run.communicate(timeout=60), run.returncode), ([b"0 written b0\n", b"1 written b1\n", b"2-2 lost\n"], b"3 written b1\nend 3 3 0\n", None, 0))

    def test_memory(self):
        """What is said by few bytes takes little memory, and what is too much for it is told in one line."""
        little = dict(preexec_fn=lambda: resource.setrlimit(resource.RLIMIT_AS, (200 << 20, 200 << 20)))
        self.room.put("great", "first,last,cause,value\n4294967000,4294967000,lost,0\nend,4294967001,4294967000,0\n")
        self.refuses(["numbers", "table=table", "report=great"], "table has 2 packets, and by great 4294967000 were restored", **little)
        with open(self.room.at("great"), "wb") as great:
            great.truncate(300 << 20)
        self.refuses(["pack", "fields=fields", "bits=8", "in=great", "out=made"], "pocket pack: out of memory", **little)

    def test_interrupt(self):
        """An interrupt is one line, and leaves the name as it was."""
        self.room.put("made", "old")
        run = subprocess.Popen([*SIGNALS, sys.executable, "-m", "pocket", "frames", "length=33", "out=made"], cwd=self.room.folder, stdin=subprocess.PIPE, stderr=subprocess.PIPE)
        wait_for(lambda: os.path.exists(self.room.at("made.part")))
        time.sleep(0.2)
        run.send_signal(signal.SIGINT)
        _, told = run.communicate(timeout=60)
        self.assertEqual((run.returncode, told, self.room.get("made")), (130, b"pocket frames: interrupted\n", b"old"))

    def test_help(self):
        """Helps, also without docstrings."""
        for flags in ((), ("-OO",)):
            for own in (["--help"], ["-h"], *([tool, "--help"] for tool in TOOLS)):
                with self.subTest(own, flags=flags):
                    status, out, told = self.run_tool(own, flags=flags)
                    self.assertTrue((status, told) == (0, "") and out.startswith(b"python3 -m pocket ") and len(out.splitlines()) > 5, (status, out, told))

    def test_wrong_words(self):
        for own, text in [(["merg", "x"], "merg: did you mean merge?"), (["number", "table=x"], "number: did you mean numbers?"), (["help"], "help: did you mean --help?"),
                          (["xyz"], "xyz: the arguments are advise, frames, merge, numbers, pack, --help"), ([], "it takes bits=BITS and apid=APID, or the name of a tool (--help)"),
                          (["bits=0", "apid=1"], "bits is a number from 1 to 49152"), (["bits=\u0668", "apid=1"], "bits is a number from 1 to 49152"),
                          (["bits=8", "apid=0100"], "apid is a number from 0 to 2046"), (["bits=8", "apid=2047"], "apid is a number from 0 to 2046"), (["bits=49153", "apid=0"], "bits is a number"),
                          (["merge", "x", "x", "neer=1"], "neer=1: No such file or directory"),
                          (["frames", "lenght=9"], "lenght=9: did you mean length=?"), (["pack", "fields=fields"], "bits= is missing")]:
            self.refuses(own, text)
        for own in (["--help"], ["merge", "--help"], ["bits=8", "apid=100"]):
            self.refuses(own, "standard output is closed", shell=">&-")
        none = dict(POCKET_LIBRARY="/none/libpocket.so", PATH="/none")
        self.refuses(["bits=8", "apid=100"], "/none/libpocket.so", given=STORE, env=none)
        self.refuses(["advise", "packets=9", "script=fields", "rows=1"], "neither the library is there", env=none)
        other = dict(POCKET_LIBRARY="libc.so.6", PATH="/none")
        self.refuses(["bits=8", "apid=100"], "libc.so.6 is no libpocket, or one of another version, which has no pocket_close: POCKET_LIBRARY can name it", given=STORE, env=other)
        self.refuses(["advise", "packets=9", "script=fields", "rows=1"], "neither the library is there", env=other)
