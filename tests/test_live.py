"""Inputs that stay open: what their packets give stands at the reader before the input goes on."""

import os
import select
import time

from program import ProgramTest, got
from rows import FIRST, FOURTH, HEADER, REPORT, SECOND, THIRD, WRITE

# Of a restore whose input stays open: the input and the output, groups of packets and what is there after each, its last packets,
# and how it ends.
LIVE = [
    ("-", "-", [(FIRST + SECOND, "B0B1", b""), (FOURTH, "B0B1B3", b"2,2,lost,0\n")], b"", 0, b"", {"z": REPORT, "z.part": None}),
    ("p", "/dev/full", [(FIRST + THIRD, "", b"1,1,lost,0\n")], FOURTH, 1, WRITE, {"z": None, "z.part": HEADER + b"1,1,lost,0\n"}),
]


def seen(look, wanted, seconds=10.0):
    """What is seen, once it is what is wanted, or after some seconds."""
    end = time.monotonic() + seconds
    while look() != wanted and time.monotonic() < end:
        time.sleep(0.01)
    return look()


class Live(ProgramTest):
    def test_live(self):
        """What each packet of a live input gives stands at the reader, and its row in the part of the report, while the input is open: all that
        is there after each group of packets. Then come the last ones, or the input ends, and it ends so."""
        for row in LIVE:
            with self.subTest(row[1]):
                self.lives(*row)

    def lives(self, name, out, groups, last, status, err, after):
        folder, came = self.folder({"p": "pipe"}), bytearray()
        path = os.path.join(folder, "p")

        def look():
            while select.select([program.stdout], [], [], 0)[0] and (more := os.read(program.stdout.fileno(), 65536)):
                came.extend(more)
            return bytes(came), got(os.path.join(folder, "z.part"))

        with open(path, "r+b", 0) as feed, open(path, "rb", 0) as given:
            program = self.start(f"restore in={name} out={out} report=z bits=8 apid=100", cwd=folder, stdin=given)
            for packets, content, rows in groups:
                feed.write(packets)
                wanted = bytes.fromhex(content), HEADER + rows
                self.assertEqual(seen(look, wanted), wanted)
            feed.write(last) if last else feed.close()
            self.assertEqual(seen(program.poll, status), status)
            rest, told = program.communicate()
        found = bytes(came) + rest, told, {name: got(os.path.join(folder, name)) for name in after}
        self.assertEqual(found, (bytes.fromhex(content), err, after))
