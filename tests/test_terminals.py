"""What is told on a terminal alone. How far a run is: when it is told and when it isn't, how often, and that the line is taken away.
And the second line after a refusal."""

import contextlib
import os
import pty
import re
import select
import threading
import time

from program import LIMIT, ProgramTest, ended
from rows import COMPRESS, FORECAST, LATE, PLAY, RESTORE, SHOW, STORE

# What takes the line away.
AWAY = b"\r\x1b[K"
PIECE = 131072
LONG = COMPRESS.replace("bits=8", "bits=1024")
# A store of packets that are passed over, each of 65,536 data bytes, and what is told of it.
PASSED = (bytes.fromhex("0001C000FFFF") + bytes(65536)) * 16
NOTHING_LISTED, NOTHING_RESTORED = b"end 0 0 0\n", b"first,last,cause,value\nend,0,0,0\n"


def feed(pipe, pieces, pause):
    """Writes so many pieces to a pipe, and closes it."""
    with contextlib.suppress(BrokenPipeError):
        for _ in range(pieces):
            pipe.write(bytes(PIECE))
            pipe.flush()
            time.sleep(pause)
        pipe.close()


def told_on(master):
    """All that a terminal is told until nothing has it open any more."""
    told, end = b"", time.monotonic() + LIMIT
    try:
        while select.select([master], [], [], max(0, end - time.monotonic()))[0]:
            told += os.read(master, 65536)
    except OSError:
        return told
    finally:
        os.close(master)
    raise TimeoutError(f"the terminal stays open, and was told {told[:300]}")


# What is said at the end, on a terminal, if an output has no byte; and of `compress` if it has no schedule.
EMPTY = b"pocket: y has no byte: no packet on APID 100 was written\r\n"
CAUTION = b"pocket: without plan= no later packet carries its mask and whole content: more than robust= lost in a row may leave all after them unwritten\r\n"


def is_told(told, whole):
    """Whether a terminal was told how far a run is, of so many bytes or of none that are known, and at last that it is done."""
    told = told.removesuffix(CAUTION)
    line = rb"\rpocket: \d+ of %d bytes" % whole if whole else rb"\rpocket: \d+ bytes"
    return re.fullmatch(rb"(%s)+%s" % (line, re.escape(AWAY)), told) is not None


HELPS = "pocket --help has the verbs and their keys"
NUMBER = "; digits alone, without a zero in front"
# Words, the files before them, the exit number, and both lines on a terminal.
SECOND_LINES = [
    ("", {}, 2, "word 0 is wrong", HELPS),
    ("-x", {}, 2, "word 0 is wrong", "-x is no verb; the verbs are compress play restore show trial multi late table forecast"),
    ("retsore in=x", {}, 2, "word 0 is wrong", "retsore is no verb: did you mean restore"),
    ("zzzzzzz", {}, 2, "word 0 is wrong", "zzzzzzz is no verb; the verbs are compress play restore show trial multi late table forecast"),
    (COMPRESS.replace("bits=8", "bits=08"), {}, 2, "word 3 is wrong", "bits=08: the bits of a packet, 1 to 49152" + NUMBER),
    (COMPRESS.replace("apid=100", "apid=2047"), {}, 2, "word 4 is wrong", "apid=2047: the APID, 0 to 2046" + NUMBER),
    ("restore in=a out=b report=c bits=8", {}, 2, "word 5 is wrong", "apid= is missing: the APID, 0 to 2046"),
    ("compress", {}, 2, "word 1 is wrong", "in= is missing: a file to read, or - for standard input"),
    ("restore in=a out=a report=c bits=8 apid=100", {}, 2, "word 2 is wrong", "out=a: another key has this name"),
    ("restore in=a in=b", {}, 2, "word 2 is wrong", "in=b: an earlier word has this key"),
    ("restore in=", {}, 2, "word 1 is wrong", "in=: a file to read, or - for standard input"),
    ("show in=x pakets=3", {}, 2, "word 2 is wrong", "show has no key pakets; the keys of show are in out bits apid"),
    ("show in=x apdi=3", {}, 2, "word 2 is wrong", "show has no key apdi: did you mean apid="),
    ("trial bits=4097", {}, 2, "word 1 is wrong", "bits=4097: the bits of a packet, 1 to 4096" + NUMBER),
    ("forecast packets=0", {}, 2, "word 1 is wrong", "packets=0: how many packets there are, 1 to 1000000" + NUMBER),
    ("show in", {}, 2, "word 1 is wrong", "in has no =; the keys of show are in out bits apid"),
    ("compress mask=123 in=a out=b bits=13 apid=1 robust=2", {}, 2, "word 1 is wrong",
     "mask=123: the first mask, two hexadecimal digits for each byte of a packet"),
    (SHOW, {}, 1, "reading failed", "x: No such file or directory (os error 2)"),
    (SHOW.replace("in=x", "in=."), {}, 1, "reading failed", ".: Is a directory (os error 21)"),
    (PLAY, {"x": STORE}, 1, "reading failed", "s: No such file or directory (os error 2)"),
    (SHOW.replace("out=y", "out=no/y"), {"x": STORE}, 1, "writing failed", "no/y: No such file or directory (os error 2)"),
    (SHOW.replace("out=y", "out=."), {"x": STORE}, 1, "writing failed", ".: Is a directory (os error 21)"),
    (SHOW.replace("out=y", "out=./x"), {"x": STORE}, 1, "writing failed", "./x: the command reads this file"),
    (SHOW.replace("out=y", "out=/dev/full"), {"x": STORE}, 1, "writing failed", "/dev/full: No space left on device (os error 28)"),
    (SHOW.replace("out=y", "out=f/y"), {"x": STORE, "f": "closed folder"}, 1, "writing failed", "f/y: Permission denied (os error 13)"),
    (SHOW, {"x": STORE, "y": ("link", "nothing")}, 1, "writing failed", "y: it is a link to a name that nothing has"),
    (SHOW, {"x": STORE, "y": ("link", "y")}, 1, "writing failed", "y: Too many levels of symbolic links (os error 40)"),
    (SHOW, {"x": STORE, "y.part": ("link", "x")}, 1, "writing failed", "y: what stands in the place of its part is no file"),
    (SHOW, {"y.part": STORE, "x": ("link", "y.part")}, 1, "writing failed", "y: its part would replace another file of the run"),
    (SHOW.replace("out=y", f"out={'y' * 251}"), {"x": STORE}, 1, "writing failed", f"{'y' * 200}: File name too long (os error 36)"),
    (RESTORE.replace("report=z", "report=./y"), {"x": STORE}, 1, "writing failed", "./y: its part would replace another file of the run"),
    (RESTORE.replace("report=z", "report=y.part"), {"x": STORE}, 1, "writing failed", "y.part: the other output is this file or its part"),
    (PLAY.replace("script=s", "script=f"), {"x": STORE, "f": "folder"}, 1, "reading failed", "f: Is a directory (os error 21)"),
    (FORECAST, {"s": b""}, 1, "reading failed", "x: No such file or directory (os error 2)"),
    (PLAY, {"x": STORE, "s": b"drop,1,2,1\n\ndro\x1bp,2,2,1\n"}, 3, "side row 2 is wrong", "dro?p,2,2,1: a row of a script begins with drop or repeat"),
    (FORECAST, {"s": b"", "x": b"drop,2,1,1\n"}, 3, "script row 1 is wrong", "drop,2,1,1: the last packet is no number from the first one to 4294967295 in plain digits"),
    (COMPRESS.replace("bits=8", "bits=16"), {"x": b"abc"}, 4, "recording ends inside packet 1", "what came before stands in y.part"),
    (RESTORE, {"x": STORE[:-1]}, 4, "store packet at byte 28 is cut", "what came before stands in y.part and z.part"),
    (PLAY, {"x": STORE[:-1], "s": b"drop,2,2,1\n"}, 4, "store packet at byte 28 is cut", "what came before stands in y.part"),
    (RESTORE, {"x": b"\x00"}, 4, "store packet at byte 0 is cut", "what came before stands in z.part"),
    (RESTORE.replace("out=y", "out=/dev/stdout").replace("report=z", "report=-"), {"x": STORE}, 1, "writing failed", "-: both outputs are standard output"),
    (PLAY, {"x": STORE, "s": b'"drop",2,1,1\n'}, 3, "side row 1 is wrong", '"drop",2,1,1: the last packet is no number from the first one to 4294967295 in plain digits'),
    # There is no second line where nothing is known or came before, or where the text came from standard input.
    (COMPRESS.replace("bits=8", "bits=16"), {"x": b"a"}, 4, "recording ends inside packet 0", None),
    (PLAY.replace("script=s", "script=-"), {"x": STORE}, 3, "side row 1 is wrong", None),
]


# Rows of parameter files, each wrong in one part: the verb's words, the row, and why.
TABLE, MULTI = "table in=x out=y report=z fields=s bits=16", "multi in=x out=y report=z streams=s"
WIDTH = "the width is no number from 1 to 64 in plain digits, or the field reaches past the last bit"
WRONG_ROWS = [
    (COMPRESS + " plan=s", [("1,2,3", "a row of a schedule is first,last,step,flags or robust,first,last,step,value"),
                            ("01,2,1,p", "the first packet is no number from 0 to 4294967295 in plain digits"),
                            ("1,4294967296,1,p", "the last packet is no number from the first one to 4294967295 in plain digits"),
                            ("1,2,0,p", "the step is no number from 1 to 4294967295 in plain digits"),
                            ("1,2,1,pp", "the flags are one to three of p, f and r, none twice"), ("robust,1,2,1,8", "the value is no number from 0 to 7")]),
    (PLAY, [("drop,1,2", "a row of a script is drop,first,last,step or repeat,first,last,step,extra"), ("repeat,1,2,1,9", "the extra copies are no number from 1 to 8")]),
    (TABLE, [("field,16,1,u,a", "the place is no number below bits in plain digits"), ("field,0,65,u,a", WIDTH),
             ("field,9,8,u,a", WIDTH), ("field,0,8,x,a", "the kind is neither u nor s"),
             ("field,0,8,u,1a", "the name is not 1 to 32 letters, digits or _, the first a letter"),
             ("field,0,8,u,b", "an earlier row has this name"), ("limit,b,x,1", "the low limit is no number from -9223372036854775808 to 18446744073709551615"),
             ("limit,b,1,x", "the high limit is no number from -9223372036854775808 to 18446744073709551615"), ("limit,b,2,1", "the high limit is below the low one"),
             ("limit,c,1,2", "no earlier row has a field of this name, or it has a limit already"), ("fields", "a row of fields is field,place,width,kind,name or limit,name,low,high")]),
    (MULTI, [("1,2,3", "a row of streams is apid,bits"), ("2047,8", "the APID is no number from 0 to 2046 in plain digits"),
             ("1,49153", "the bits are no number from 1 to 49152 in plain digits"), ("100,8", "an earlier row has this APID, or there are 64 rows before it")]),
]
BEFORE = {TABLE: "field,0,8,u,b\n", MULTI: "100,8\n"}


# Commands that are done, and what is said of an output without a byte.
DONE = [
    (RESTORE.replace("100", "101"), {"x": STORE, "y": b"yesterday"}, "y has no byte: no packet on APID 101 was written"),
    (LATE, {"x": b"", "y": b"yesterday"}, "y has no byte: no packet on APID 100 was written"),
    (PLAY, {"x": b"", "s": b""}, "y has no byte: no packet on APID 100 was written"),
    (MULTI, {"x": STORE, "s": b"101,8\n"}, "y has no byte: no packet was written"),
    (COMPRESS + " plan=s", {"x": b"", "s": b""}, "y has no byte: no packet on APID 100 was written"),
    (RESTORE, {"x": STORE}, None), (SHOW.replace("100", "101"), {"x": STORE}, None),
    (RESTORE.replace("100", "101").replace("out=y", "out=-"), {"x": STORE, "-": b""}, None),
]


class Terminals(ProgramTest):
    def watched(self, words, before, output=None, pieces=0, pause=0.0):
        """How a run ends, what it tells on a terminal, and how long it took. Standard output is a file, or the terminal."""
        folder = self.folder(before)
        master, slave = pty.openpty()
        start = time.monotonic()
        with open(os.path.join(self.room, "printed"), "wb") as file:
            program = self.start(words, cwd=folder, stdout=slave if output == "terminal" else file, stderr=slave)
        os.close(slave)
        threading.Thread(target=feed, args=(program.stdin, pieces, pause), daemon=True).start()
        told = told_on(master)
        return program.wait(LIMIT), told, time.monotonic() - start

    def is_told_of(self, words, before, whole, output=None, **how):
        """Whether a run is done and told how far it is."""
        status, told, _ = self.watched(words, before, output, **how)
        self.assertTrue(status == 0 and is_told(told, whole), (words, status, told[:300]))

    def test_progress(self):
        """A long run tells how far it is, and takes the line away at the end."""
        for output, words in ((None, LONG), ("terminal", LONG), (None, LONG.replace("out=y", "out=-"))):
            self.is_told_of(words, {"x": bytes(1 << 20)}, 1 << 20, output)

    def test_progress_of_pipes(self):
        """It tells how much it has read of an input whose length isn't known, and of no other length."""
        self.is_told_of(LONG.replace("in=x", "in=-"), {}, None, pieces=16)
        folder = self.folder({"p": "pipe", "x": bytes(1 << 20)})
        self.begin(["sh", "-c", "cat x > p"], cwd=folder)
        self.is_told_of(LONG.replace("in=x", f"in={folder}/p"), {}, None)

    def test_progress_before_refusals(self):
        """The line is taken away before a refusal."""
        size = (1 << 20) + 1
        status, told, _ = self.watched(LONG, {"x": bytes(size)})
        refusal = b"pocket: recording ends inside packet 8192\r\npocket: what came before stands in y.part\r\n"
        self.assertEqual((status, told[-len(refusal):]), (4, refusal))
        self.assertTrue(is_told(told[:-len(refusal)], size), told[:300])

    def test_progress_is_told_seldom(self):
        """It is told at most ten times a second, and yet again and again."""
        status, told, seconds = self.watched(LONG.replace("in=x", "in=-"), {}, pieces=120, pause=0.01)
        times = told.count(b"bytes")
        self.assertTrue(status == 0 and is_told(told, None) and 3 <= times <= 10 * seconds + 1, (status, told[:300], times, seconds))

    def test_hidden(self):
        """Nothing is told if an output goes to the terminal, if little is read, or if a parameter file alone is long."""
        listing, restored = (text.replace(b"\n", b"\r\n") for text in (NOTHING_LISTED, NOTHING_RESTORED))
        rows = [("show in=x out=- bits=8 apid=100", {"x": PASSED}, listing), ("show in=x out=/dev/stdout bits=8 apid=100", {"x": PASSED}, listing),
                ("restore in=x out=y report=- bits=8 apid=100", {"x": PASSED}, restored + EMPTY), (LONG, {"x": bytes(1024)}, CAUTION),
                (LONG + " plan=s", {"x": bytes(1024), "s": b"\n" * (1 << 20)}, b"")]
        for words, before, wanted in rows:
            with self.subTest(words):
                self.assertEqual(self.watched(words, before, "terminal")[:2], (0, wanted))

    def test_without_a_terminal(self):
        """Nothing is told if standard error is no terminal, even if standard output is one."""
        folder = self.folder({"x": bytes(1 << 20)})
        master, slave = pty.openpty()
        self.addCleanup(os.close, master)
        self.addCleanup(os.close, slave)
        self.assertEqual(ended(self.start(LONG, cwd=folder, stdin=slave, stdout=slave)), (0, b"", b""))

    def test_second_lines(self):
        """A refusal has this second line."""
        for words, before, status, first, second in SECOND_LINES:
            with self.subTest(words):
                wanted = "".join(f"pocket: {line}\r\n" for line in (first, second) if line).encode()
                self.assertEqual(self.watched(words, before, pieces=1 if "script=-" in words else 0)[:2], (status, wanted))

    def test_wrong_rows(self):
        """It is told which part of a row is wrong, in a pipe too if the environment asks for it, and there at no other time."""
        for words, row, why in [(words, *row) for words, rows in WRONG_ROWS for row in rows]:
            with self.subTest(row):
                folder = self.folder({"x": STORE, "s": (BEFORE.get(words, "") + row + "\n").encode()})
                for asked, lines in (("1", 2), ("0", 1), ("", 1)):
                    status, _, told = ended(self.start(words, cwd=folder, env=dict(os.environ, POCKET_EXPLAIN=asked)))
                    wanted = [f"pocket: side row {1 + (words in BEFORE)} is wrong", f"pocket: {row}: {why}"][:lines]
                    self.assertEqual((status, told.decode().splitlines()), (3, wanted))

    def test_empty_outputs(self):
        """It is said of a command that is done if its output is a file without a byte."""
        for words, before, line in DONE:
            with self.subTest(words):
                self.assertEqual(self.watched(words, before)[:2], (0, f"pocket: {line}\r\n".encode() if line else b""))
