"""The fixture of tests that run the program: folders of its own, with files, links, pipes and closed folders, and what it leaves there."""

import os
import pathlib
import shutil
import socket
import stat
import subprocess
import tempfile
import time
import unittest

TOP = os.path.dirname(os.path.dirname(os.path.abspath(__file__)))
SAMPLES = os.path.join(TOP, "crates", "pocket", "data")
# What is tried: the proved program, or another one that the environment names.
PROGRAM = os.path.abspath(os.environ.get("PROGRAM", os.path.join(TOP, "crates", "pocket", "out", "pocket")))
NOBODY = 65534
# The seconds that anything may take. What takes longer is killed, and its test fails.
LIMIT = 60
# Whoever starts the tests may ignore a signal, as nohup does, and the program would ignore it too.
SIGNALS = ["env", "--default-signal=HUP,INT,TERM,QUIT"]


class ProgramTest(unittest.TestCase):
    """Runs the program in folders of its own, as nobody if it is run by root, so that a folder can be closed to it."""

    given = PROGRAM
    is_root = os.geteuid() == 0

    def setUp(self):
        self.room = self.enterContext(tempfile.TemporaryDirectory(prefix="pocket-"))
        self.program = os.path.join(self.room, "pocket")
        shutil.copyfile(self.given, self.program)
        os.chmod(self.program, 0o755)
        os.chmod(self.room, 0o755)
        self.user = SIGNALS + (["setpriv", f"--reuid={NOBODY}", f"--regid={NOBODY}", "--clear-groups"] if self.is_root else [])

    def folder(self, before):
        """A new folder with these files."""
        folder = tempfile.mkdtemp(dir=self.room)
        if self.is_root:
            os.chown(folder, NOBODY, NOBODY)
        for name, content in before.items():
            path = os.path.join(folder, name)
            put(path, content, folder)
            if self.is_root and not is_of_another(content):
                os.chown(path, NOBODY, NOBODY, follow_symlinks=False)
        return folder

    def start(self, words, **how):
        """Starts the program; its output is kept, if nothing else is said of it."""
        how = dict(dict(stdin=subprocess.PIPE, stdout=subprocess.PIPE, stderr=subprocess.PIPE), **how)
        return self.begin(self.user + [self.program] + (words.split() if isinstance(words, str) else words), **how)

    def begin(self, command, **how):
        """Starts the program, or a reader or a writer beside it, which the test's end ends."""
        program = self.enterContext(subprocess.Popen(command, umask=0o022, **how))
        self.addCleanup(program.kill)
        return program

    def each(self, rows):
        """Runs each row of a table. Some need a file of another user, and are run by root alone."""
        for row in rows:
            if self.is_root or "as_root" not in row:
                with self.subTest(row["name"]):
                    self.check(row)

    def check(self, row):
        """Compares how a command line ended, what it printed and what stands in its folder with its row."""
        folder = self.folder(row["before"])
        stood = found_in(folder)
        reader = "pipe" in row and self.begin(["cat", os.path.join(folder, row["pipe"][0])], stdout=subprocess.PIPE)
        program = self.start(row["words"], cwd=folder, **self.streams(row, folder))
        self.assertEqual(ended(program, row["given"] if program.stdin else None), (row["status"], row["out"], row["err"]))
        if reader:
            self.assertEqual(ended(reader)[1], row["pipe"][1])
        found = found_in(folder)
        self.assertEqual(found, wanted_in(stood, row, found))

    def streams(self, row, folder):
        """What standard input, output and error of a row are, if they are no pipes."""
        how = {}
        if "stdin" in row:
            how["stdin"] = self.enterContext(open(os.path.join(folder, row["stdin"]), "rb"))
        if "stdout" in row:
            how["stdout"] = self.enterContext(unread_pipe() if row["stdout"] == "unread pipe" else open(os.path.join(folder, row["stdout"]), "ab"))
        if "closed" in row:
            how[row["closed"]], how["preexec_fn"] = None, lambda: os.close(["stdin", "stdout", "stderr"].index(row["closed"]))
        return how


class Folder:
    """A folder, and the files in it."""

    def __init__(self, folder):
        self.folder = folder

    def at(self, name):
        return os.path.join(self.folder, name)

    def put(self, name, content):
        pathlib.Path(self.at(name)).write_bytes(content.encode() if isinstance(content, str) else content)

    def get(self, name):
        """What a file has, or None."""
        return got(self.at(name))


def text_of(name, folder=TOP):
    """The text of a file of the repository, or of another folder."""
    return pathlib.Path(folder, name).read_text("utf-8")


def ended(program, given=None):
    """How a program ended and what it printed."""
    out, err = program.communicate(given, timeout=LIMIT)
    return program.returncode, out or b"", err or b""


def wait_for(is_so, limit=LIMIT):
    """Waits until something is so, which it gives, and fails if it takes too long."""
    end = time.monotonic() + limit
    while not (found := is_so()):
        if time.monotonic() > end:
            raise TimeoutError("what was waited for did not come")
        time.sleep(0.002)
    return found


def unread_pipe():
    """The end of a pipe that nobody reads any more."""
    reading, writing = os.pipe()
    os.close(reading)
    return os.fdopen(writing, "wb")


def is_of_another(content):
    """Whether a file or a folder stays root's."""
    return content == "sticky folder" or isinstance(content, tuple) and content[0] == "another's"


def put(path, content, folder):
    """Makes a file, a link, a pipe, a socket or a folder."""
    kind, *more = content if isinstance(content, tuple) else (content,)
    if kind in FOLDERS:
        os.mkdir(path)
        os.chmod(path, FOLDERS[kind])
    elif kind == "pipe":
        os.mkfifo(path)
    elif kind == "socket":
        with socket.socket(socket.AF_UNIX) as one:
            one.bind(path)
    elif kind == "hard":
        os.link(os.path.join(folder, more[0]), path)
    elif kind == "link":
        os.symlink(more[0], path)
    else:
        pathlib.Path(path).write_bytes(more[-1] if more else kind)
        os.chmod(path, {"closed": 0o444, "another's": 0o666, "mode": more[0] if more else 0}.get(kind, 0o644))


FOLDERS = {"folder": 0o755, "closed folder": 0o555, "sticky folder": 0o1777}
SPECIAL = {stat.S_IFIFO: "pipe", stat.S_IFSOCK: "socket", stat.S_IFDIR: "folder"}


def got(path):
    """What stands there: bytes, a link, a pipe, a socket, a folder, or None."""
    try:
        mode = os.lstat(path).st_mode
    except FileNotFoundError:
        return None
    if stat.S_ISLNK(mode):
        return ("link", os.readlink(path))
    if stat.S_IFMT(mode) in SPECIAL:
        return SPECIAL[stat.S_IFMT(mode)]
    if not os.access(path, os.R_OK):
        os.chmod(path, mode | 0o400)
    try:
        return pathlib.Path(path).read_bytes()
    finally:
        if not mode & 0o400:
            os.chmod(path, mode)


def found_in(folder):
    """All that stands in a folder: what each name has, and its mode."""
    names = [os.path.relpath(os.path.join(base, name), folder) for base, folders, files in os.walk(folder) for name in folders + files]
    modes = {name: stat.S_IMODE(os.lstat(os.path.join(folder, name)).st_mode) for name in names}
    return {name: (got(os.path.join(folder, name)), modes[name]) for name in names}


def wanted_in(stood, row, found):
    """What has to stand in a folder. A name of which the row says nothing has what it had, and its mode; one of which it says no mode, any."""
    wanted = {name: (content, row.get("modes", {}).get(name, found.get(name, (None, None))[1])) for name, content in row["after"].items()}
    return {name: own for name, own in {**stood, **wanted}.items() if own[0] is not None}
