"""What a disk that gets full leaves of two outputs: both as they were, as a second line tells with the name, or both new. A disk in memory is mounted for it, with room for each
of many numbers of bytes in turn; where that isn't allowed it is skipped."""

import os
import subprocess

from program import ProgramTest, ended, got, put

PAGE = 4096
ROUNDS = 64
COUNT = 24000
OLD = b"yesterday's\n"
# Each verb with two outputs, of which both or the report alone lie on the disk that gets full.
VERBS = ["play in=store out={out} report={report} apid=100 script=script", "restore in=played out={out} report={report} bits=16 apid=100",
         "late in=played out={out} report={report} bits=16 apid=100 window=4", "multi in=played out={out} report={report} streams=streams",
         "table in=recording out={out} report={report} fields=fields bits=16"]
PLACES = [("t/y", "t/z"), ("y", "t/z")]


class FullDisk(ProgramTest):
    def setUp(self):
        """A folder with inputs of which each verb makes many bytes, and one for the disk."""
        super().setUp()
        recording = b"".join((number * 40503 % 65536).to_bytes(2, "big") for number in range(COUNT))
        self.place = self.folder({"recording": recording, "script": b"drop,1,4294967295,2\n", "streams": b"100,16\n",
                                  "fields": b"field,0,16,u,a\nlimit,a,1,2\n", "t": "folder"})
        for words in ("compress in=recording out=store bits=16 apid=100 robust=2", "play in=store out=played report=/dev/null script=script apid=100"):
            self.assertEqual(ended(self.start(words, cwd=self.place)), (0, b"", b""))

    def test_room(self):
        """A verb replaces both outputs or none, whatever room there is for them."""
        for verb in VERBS:
            for names in PLACES:
                with self.subTest(verb.format(out=names[0], report=names[1])):
                    self.fill(verb.format(out=names[0], report=names[1]), names)

    def fill(self, words, names):
        done, whole = self.run_on(words, names, 4096)
        self.assertEqual(done, (0, b"", b""))
        stands = sum(name.startswith("t/") for name in names)
        needed = sum(-(-len(content) // PAGE) for name, content in zip(names, whole) if name.startswith("t/"))
        seen = set()
        for pages in sorted({stands + turn * needed // (ROUNDS - 1) for turn in range(ROUNDS)}):
            found = self.run_on(words, names, pages)
            seen.add(found[0][0])
            full = [f"pocket: writing failed\npocket: {name}: No space left on device (os error 28)\n".encode() for name in names if name.startswith("t/")]
            self.assertIn(found, [((0, b"", b""), whole), *(((1, b"", told), [OLD, OLD]) for told in full)], f"on {pages} pages")
        self.assertEqual(seen, {0, 1})

    def run_on(self, words, names, pages):
        """How a command ends on a disk of so many pages, and what both names have then."""
        disk = os.path.join(self.place, "t")
        mount = ["mount", "-t", "tmpfs", "-o", f"size={pages * PAGE},mode=777", "tmpfs", disk]
        if not self.is_root or subprocess.run(mount, capture_output=True).returncode:
            self.skipTest("no disk can be mounted here")
        try:
            for name in names:
                put(os.path.join(self.place, name), OLD, self.place)
                os.chmod(os.path.join(self.place, name), 0o666)
            return ended(self.start(words, cwd=self.place, env=dict(os.environ, POCKET_EXPLAIN="1"))), [got(os.path.join(self.place, name)) for name in names]
        finally:
            subprocess.run(["umount", disk], check=True)
