"""Runs that are cut off, and runs whose files, folders, memory or disk change or end meanwhile: each name keeps what it had."""

import contextlib
import os
import resource
import signal
import subprocess
import threading

from program import Folder, ProgramTest, ended, got, wait_for
from rows import COMPRESS, PLAYED, RECORDING, REPORT, RESTORED, STORE, WRITE

OLD = b"yesterday"
# Second lines are told here, in a pipe too.
TOLD = dict(os.environ, POCKET_EXPLAIN="1")
REPLACED = b"its part is gone, or another run has taken its place\n"
FROM_PIPE = "compress in=- out=y bits=8 apid=100 robust=1"
RESTORE_PIPE = "restore in=- out=y report=z bits=8 apid=100"
# Packets of 1,024 bits, each whole, so that the system gets much of the store before the end.
MUCH = "compress in=- out=y bits=1024 apid=100 robust=7 plan=s"


class Waiting(Folder):
    """The folder of a run that reads standard input, once its parts are there."""

    def __init__(self, test, words, before, parts):
        super().__init__(test.folder(before))
        self.program = test.start(words, cwd=self.folder, env=TOLD)
        wait_for(lambda: all(os.path.lexists(self.at(name)) for name in parts))

    def got(self, *names):
        return [self.get(name) for name in names]


class CutOff(ProgramTest):
    def test_signals(self):
        """A run that is killed leaves what stood under its names, and in its part a front of the output."""
        for number in (signal.SIGKILL, signal.SIGTERM, signal.SIGINT, signal.SIGHUP):
            with self.subTest(number.name):
                run = Waiting(self, MUCH, {"y": OLD, "s": b"0,4294967295,1,fr\n"}, ["y.part"])
                run.program.stdin.write(os.urandom(1 << 20))
                run.program.stdin.flush()
                wait_for(lambda: os.path.getsize(run.at("y.part")) > 0)
                during = run.got("y")
                run.program.send_signal(number)
                self.assertEqual((ended(run.program), during, run.got("y")), ((-number, b"", b""), [OLD], [OLD]))
                self.assertTrue(run.got("y.part")[0].startswith(bytes.fromhex("0064C000")))

    def test_killed_with_report(self):
        """A run with a report that is killed leaves what stood under both names, and under a name that wasn't there nothing."""
        for before in ({"y": OLD, "z": OLD}, {}):
            run = Waiting(self, RESTORE_PIPE, before, ["y.part", "z.part"])
            run.program.kill()
            ended(run.program)
            self.assertEqual(run.got("y", "z"), [before.get("y"), before.get("z")])

    def two_at_once(self, words, other, shared, data):
        """How two runs end, of which the second replaced the shared part, with the same input each; and what y has after the first one."""
        first = Waiting(self, words, {"y": OLD}, ["y.part", shared])
        node = os.lstat(first.at(shared)).st_ino
        second = self.start(other, cwd=first.folder)
        wait_for(lambda: os.path.lexists(first.at(shared)) and os.lstat(first.at(shared)).st_ino != node)
        return first, [ended(first.program, data), first.got("y"), ended(second, data)]

    def test_two_at_one_name(self):
        """Of two runs at once over one name the first is refused, whose part the second replaced, as a second line tells, and the second is whole."""
        run, found = self.two_at_once(FROM_PIPE, FROM_PIPE, "y.part", RECORDING)
        self.assertEqual([*found, run.got("y", "y.part")], [(1, b"", WRITE + b"pocket: y: " + REPLACED), [OLD], (0, b"", b""), [STORE, None]])

    def test_two_with_one_report(self):
        """Of two runs at once with one report and two outputs the first is refused, and its output keeps what it had: it has no report any
        more. The second is whole."""
        run, found = self.two_at_once(RESTORE_PIPE, RESTORE_PIPE.replace("out=y", "out=w"), "z.part", PLAYED)
        self.assertEqual([*found, run.got("y", "w", "z", "z.part")], [(1, b"", WRITE + b"pocket: z: " + REPLACED), [OLD], (0, b"", b""), [OLD, RESTORED, REPORT, None]])

    def test_whole(self):
        """The names have what stood there until the input ends, and then what is whole."""
        run = Waiting(self, RESTORE_PIPE, {"y": OLD, "z": OLD}, ["y.part", "z.part"])
        during = run.got("y", "z")
        self.assertEqual((during, ended(run.program, PLAYED)), ([OLD, OLD], (0, b"", b"")))
        self.assertEqual(run.got("y", "z", "y.part", "z.part"), [RESTORED, REPORT, None, None])

    def test_closed_folder(self):
        """An output whose folder is closed before its end leaves the name what it had, and is whole in its part."""
        run = Waiting(self, FROM_PIPE, {"y": OLD}, ["y.part"])
        os.chmod(run.folder, 0o555)
        self.assertEqual((ended(run.program, RECORDING), run.got("y", "y.part")), ((1, b"", WRITE + b"pocket: y: Permission denied (os error 13)\n"), [OLD, STORE]))

    def test_reader_goes(self):
        """An output to a named pipe whose reader goes away meanwhile is refused as a failed writing."""
        folder = self.folder({"p": "pipe"})
        path = os.path.join(folder, "p")
        reader = os.open(path, os.O_RDONLY | os.O_NONBLOCK)
        program = self.start(FROM_PIPE.replace("out=y", "out=p"), cwd=folder, env=TOLD)
        wait_for(lambda: has_open(program, path))
        os.close(reader)
        self.assertEqual(ended(program, RECORDING), (1, b"", WRITE + b"pocket: p: Broken pipe (os error 32)\n"))

    def test_link_appears(self):
        """A link that appears as the earlier part is removed stays as it is, and leads to no other file: the run is done, or refused as a
        failed writing."""
        for _ in range(20):
            folder = self.folder({"x": RECORDING, "k": OLD, "y.part": b"earlier"})
            ending = threading.Event()
            beside = threading.Thread(target=link_when_gone, args=(os.path.join(folder, "y.part"), "k", ending), daemon=True)
            beside.start()
            found = ended(self.start(COMPRESS, cwd=folder))
            ending.set()
            beside.join()
            left = [got(os.path.join(folder, name)) for name in ("y", "k")]
            self.assertIn((found, left), [((0, b"", b""), [STORE, OLD]), ((1, b"", WRITE), [None, OLD])])

    def test_limited_file(self):
        """An output that can't be written whole as it is finished leaves the name what it had: no file may be longer than eight bytes, and all
        of it is handed over at the end."""
        def limit():
            signal.signal(signal.SIGXFSZ, signal.SIG_IGN)
            resource.setrlimit(resource.RLIMIT_FSIZE, (8, 8))
        folder = self.folder({"x": RECORDING, "y": OLD})
        self.assertEqual(ended(self.start(COMPRESS, cwd=folder, preexec_fn=limit)), (1, b"", WRITE))
        self.assertEqual(got(os.path.join(folder, "y")), OLD)
        self.assertTrue(STORE.startswith(got(os.path.join(folder, "y.part")) or b""))

    def test_no_memory(self):
        """A run that finds no memory is refused so: it gets what the program takes that does nothing, and the room for a parameter file is a
        megabyte more."""
        def limited(words, size):
            return ended(self.begin([self.program, *words.split()], cwd=folder, preexec_fn=lambda: resource.setrlimit(resource.RLIMIT_AS, (size, size)),
                                    stdout=subprocess.PIPE, stderr=subprocess.PIPE))
        folder, size = self.folder({"x": RECORDING, "s": b""}), 1 << 20
        while limited("--version", size)[0] != 0 and size < 1 << 30:
            size += 1 << 16
        self.assertEqual(limited(COMPRESS + " plan=s", size), (5, b"", b"pocket: out of memory\n"))
        self.assertIsNone(got(os.path.join(folder, "y.part")))


def has_open(program, path):
    """Whether a program has a file open."""
    handles = f"/proc/{program.pid}/fd"
    try:
        return any(os.path.realpath(os.path.join(handles, number)) == path for number in os.listdir(handles))
    except FileNotFoundError:
        return False


def link_when_gone(path, target, ending):
    """Makes a link as soon as no file has its name."""
    while not ending.is_set():
        with contextlib.suppress(FileExistsError):
            return os.symlink(target, path)
