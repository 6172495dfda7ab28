"""What a program in Python can do wrong ends in an error of Python's, and with nothing lost: objects that lie about their length, a handle
that two threads use, one that is opened twice, and words of other types."""

import subprocess
import sys
from concurrent.futures import ThreadPoolExecutor

from library import LibraryTest
from pocket import Closed, Counts, Desk, Kind, PocketError, Receiver, Sender

# The data of the first packet of 8 bits of docs/FORMATS.md, of which the content is B0.
CONTENT, DATA = b"\xb0", bytes.fromhex("85B8D600")
ARRIVALS, OPENINGS, MOST_GROWN = 4000, 300, 16 << 20
# Openings again and again, in a process of its own: by how many bytes it grew while one handle was opened again, and others not closed.
GROWTH = f"""
import resource, pocket
most = lambda: resource.getrusage(resource.RUSAGE_SELF).ru_maxrss * 1024
receiver = pocket.Receiver(49152)
before = most()
for _ in range({OPENINGS}):
    try:
        receiver.__init__(49152)
    except pocket.PocketError:
        continue
    raise SystemExit("it was opened again")
again = most() - before
for _ in range({OPENINGS}):
    pocket.Receiver(49152)
print(again, most() - before)
"""


def lying(length):
    """A type of bytes that says so of its length."""
    return type("Lying", (bytes,), {"__len__": lambda self: length})


class Misuse(LibraryTest):
    def test_lengths(self):
        """An object is taken as the bytes that it has, whatever it says."""
        for length in (0, 2, 60000, 2**33):
            liar = lying(length)
            with self.subTest(length), Sender(8, liar(b"\x00")) as sender, Receiver(8) as receiver, Desk() as desk:
                self.assertEqual(sender.send(liar(CONTENT), 1).data, DATA)
                found = receiver.receive(0, liar(DATA))
                self.assertEqual((found.kind, found.content), (Kind.WRITTEN, CONTENT))
                desk.put("x", liar(CONTENT))
                self.assertEqual(desk.get("x"), CONTENT)
        with Sender(8) as sender:
            self.assertEqual(sender.send(memoryview(bytearray(CONTENT)), 1).data, DATA)

    def twice(self, call):
        """Makes a call again and again in two threads, of which none is refused."""
        with ThreadPoolExecutor(2) as both:
            for work in [both.submit(lambda: [call() for _ in range(ARRIVALS)]) for _ in range(2)]:
                work.result()

    def test_threads(self):
        """Arrivals, inputs and commands of two threads at one handle are all counted."""
        self.addCleanup(sys.setswitchinterval, sys.getswitchinterval())
        sys.setswitchinterval(1e-6)
        with Sender(64) as sender, Receiver(64) as receiver, Desk() as desk:
            self.twice(lambda: receiver.receive(0, DATA))
            self.assertEqual(receiver.counts().packets, 2 * ARRIVALS)
            self.twice(lambda: sender.send(bytes(8), 1))
            desk.put("x", CONTENT)
            self.twice(lambda: desk.run("compress", "in=x", "out=y", "bits=8", "apid=100", "robust=1"))
            self.assertEqual(desk.get("y")[6:], DATA)

    def test_openings(self):
        """A second opening is refused and changes nothing."""
        with Receiver(49152) as receiver, Sender(8) as sender, Desk() as desk:
            self.refuses(PocketError, None, receiver.__init__, 49152)
            self.assertEqual(receiver.counts(), Counts(0, 0, 0, 0))
            self.refuses(PocketError, None, sender.__init__, 8)
            self.assertEqual(sender.send(CONTENT, 1).data, DATA)
            self.refuses(PocketError, None, desk.__init__)
            self.assertEqual(desk.get("x"), b"")
        self.refuses(PocketError, None, sender.__init__, 8)
        self.refuses(Closed, None, sender.send, CONTENT)

    def test_memory(self):
        """A second opening takes no memory, nor do receivers that nobody closed."""
        grown = subprocess.run([sys.executable, "-c", GROWTH], capture_output=True, check=True, text=True).stdout
        self.assertLess(max(map(int, grown.split())), MOST_GROWN)

    def test_types(self):
        """A value of another type is a TypeError."""
        with Sender(8) as sender, Receiver(8) as receiver, Desk() as desk:
            calls = [(Sender, "8"), (Sender, 8.0), (Sender, None), (Sender, 8, 15), (Sender, 8, "0f"), (Receiver, "8"), (Receiver, None),
                     (sender.send, "b0"), (sender.send, None), (sender.send, [176]), (sender.send, CONTENT, "1"), (sender.send, CONTENT, 1.0),
                     (receiver.receive, "0", DATA), (receiver.receive, 0.0, DATA), (receiver.receive, 0, "85"), (receiver.receive, 0, None),
                     (desk.put, b"x", CONTENT), (desk.put, None, CONTENT), (desk.put, "x", "b0"), (desk.run, b"show"), (desk.run, 5),
                     (desk.get, b"x"), (desk.get, None), (Sender.load, "x"), (Receiver.load, None)]
            for call, *words in calls:
                with self.subTest(call.__name__, words=words):
                    self.refuses(TypeError, None, call, *words)
            self.assertEqual((sender.send(CONTENT, 1).data, receiver.counts()), (DATA, Counts(0, 0, 0, 0)))
