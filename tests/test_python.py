"""Worked packets and each wrong argument, with nothing changed after it, from Python."""

import ctypes
import os
from unittest import mock

from library import LibraryTest
import pocket
from pocket.errors import REFUSED
from rows import PLAYED, RECORDING, REPORT, RESTORED, STORE

PACKETS = [("85B8D600", 1), ("424B8D62", 1), ("44C0", 2), ("C085C0", 1)]
COMPRESS, RESTORE = "compress in=x out=s bits=8 apid=100 robust=1".split(), "restore in=s out=b report=r bits=8 apid=100".split()
CLOSED = "it is closed"


class Python(LibraryTest):
    def wrong_calls(self, sender, receiver):
        for content in (b"\xb0\x00", b""):
            self.refuses(pocket.WrongLength, "the input has the wrong length", sender.send, content)
        for robust in (8, 256, -1):
            self.refuses(pocket.RobustnessOutOfRange, "the required robustness is above 7", sender.send, b"\xb0", robust)
        for count in (16384, 65536, -1):
            self.refuses(pocket.CountOutOfRange, "the sequence count is above 16383", receiver.receive, count, b"\x00")
        self.refuses(pocket.TooLong, "the packet is too long", receiver.receive, 0, bytes(65537))

    def test_openings(self):
        for bits in (0, -1, 49153, 1 << 32, (1 << 32) + 8):
            for kind in (pocket.Sender, pocket.Receiver):
                self.refuses(pocket.BitsOutOfRange, "a vector has 1 to 49152 places", kind, bits)
        self.refuses(pocket.WrongLength, "the mask has the wrong length", pocket.Sender, 8, b"\x0f\xff")
        self.refuses(pocket.SpareBitSet, "the mask has a spare bit set", pocket.Sender, 9, b"\x0f\xff")

    def test_index(self):
        """Bits are anything that is a whole number."""
        class Nine:
            __index__ = lambda self: 9

        with pocket.Sender(Nine()) as sender, pocket.Receiver(Nine()) as receiver:
            self.assertEqual((sender.bits, receiver.bits), (9, 9))
            self.assertEqual(receiver.receive(0, sender.send(b"\x12\x80", 1).data).content, b"\x12\x80")

    def test_worked(self):
        """The worked packets, twice with a reset between them, and what is refused, which changes nothing."""
        with pocket.Sender(8) as sender, pocket.Receiver(8) as receiver:
            for _ in range(2):
                self.worked(sender, receiver)
                self.refuses(pocket.WrongLength, "the mask has the wrong length", sender.reset, b"\x0f\xff")
                self.assertEqual((sender.sent, receiver.counts().packets), (4, 5))
                sender.reset()
                receiver.reset()
                self.assertEqual((sender.sent, receiver.counts()), (0, pocket.Counts(0, 0, 0, 0)))
            sender.reset(b"\x0f")
            self.assertEqual([sender.send(one).data.hex() for one in (b"\xa5", b"\xa6")], ["81615c6a50", "86c0"])
        for call in (lambda: sender.send(b"\xb0"), lambda: receiver.receive(0, b"\x00"), receiver.counts, lambda: sender.sent, sender.reset, receiver.reset, lambda: receiver.bits):
            self.refuses(pocket.Closed, CLOSED, call)
        sender.close()

    def worked(self, sender, receiver):
        for number, (data, level) in enumerate(PACKETS):
            self.wrong_calls(sender, receiver)
            self.assertEqual((sender.sent, sender.bits, receiver.bits), (number, 8, 8))
            sent = sender.send(RECORDING[number:number + 1], 1)
            self.assertEqual((sent.data.hex().upper(), sent.level), (data, level))
            if number != 2:
                lost = range(2, 3) if number == 3 else range(0)
                found = receiver.receive(number, sent.data)
                self.assertEqual((found.number, found.kind, list(found.lost), found.content), (number, pocket.Kind.WRITTEN, list(lost), RECORDING[number:number + 1]))
        self.assertEqual(receiver.receive(3, b"").kind, pocket.Kind.REPEAT)
        self.assertEqual(receiver.receive(4, b"\x43\x00"), pocket.Arrival(4, pocket.Kind.WRONG, 8, range(0), False, None))
        self.assertEqual(receiver.counts(), pocket.Counts(5, 3, 1, 2))

    def test_interrupted_words(self):
        """A command that is interrupted before it runs does nothing, and the next one has its own words alone."""
        library, word = pocket.calls.library, pocket.calls.library.pocket_word

        def interrupted(place, is_taken):
            """The call that takes a word, interrupted at one of them, before it is taken or after."""
            calls = iter(range(place + 1))

            def taken(*own):
                is_last = next(calls, None) == place
                if not is_last or is_taken:
                    self.assertEqual(word(*own), 0)
                if is_last:
                    raise KeyboardInterrupt
                return 0
            return taken

        with pocket.Desk() as desk:
            desk.put("x", RECORDING)
            for place in range(len(COMPRESS)):
                for is_taken in (False, True):
                    with mock.patch.object(library, "pocket_word", interrupted(place, is_taken)):
                        self.refuses(KeyboardInterrupt, None, desk.run, *COMPRESS)
                    self.assertEqual(desk.names(), ["x"])
                    desk.run(*COMPRESS)
                    self.assertEqual(desk.get("s"), STORE)
                    desk.remove("s")

    def test_masks(self):
        """A first mask, and inputs of 13 bits."""
        with pocket.Sender(8, b"\x0f") as sender:
            self.assertEqual([sender.send(one).data.hex() for one in (b"\xa5", b"\xa6")], ["81615c6a50", "86c0"])
        with pocket.Sender(13) as sender:
            self.refuses(pocket.SpareBitSet, "the input has a spare bit set", sender.send, b"\x12\x34")
            self.refuses(pocket.SpareBitSet, "the mask has a spare bit set", sender.reset, b"\x12\x34")
            self.assertEqual(sender.send(b"\x12\x38").data.hex(), "81b96247")

    def test_commands(self):
        """The commands at a desk: the store of the inputs, and what is restored if packet 2 is lost."""
        self.assertEqual(pocket.run(*COMPRESS, inputs={"x": RECORDING}), {"s": STORE})
        self.assertEqual(pocket.run(*RESTORE, inputs={"s": PLAYED}), {"b": RESTORED, "r": REPORT})

    def test_not_blocking(self):
        """A source that has no bytes yet isn't taken as ended."""
        reading, writing = os.pipe()
        os.set_blocking(reading, False)
        os.write(writing, PLAYED[:15])
        with open(reading, "rb", buffering=0) as source, open(writing, "wb"):
            packets = pocket.space_packets(source, 100)
            self.assertEqual(next(packets).count, 0)
            self.refuses(BlockingIOError, "[Errno 11] the source is in non-blocking mode", next, packets)

    def test_desk(self):
        with pocket.Desk() as desk:
            desk.put("x", RECORDING[:1])
            desk.run(*COMPRESS)
            self.assertEqual((desk.get("s"), desk.get("x"), desk.get("none")), (STORE[:10], RECORDING[:1], b""))
            self.refuses(pocket.Refused, "word 3 is wrong", desk.run, *COMPRESS[:3], "bits=0", *COMPRESS[4:])
            self.refuses(pocket.Refused, "word 0 is wrong", desk.run)
            self.refuses(pocket.Refused, "word 0 is wrong", desk.run, *[""] * 1000)
            self.refuses(pocket.TooManyWords, "the command has too many arguments", desk.run, *[""] * 1001)
            self.refuses(pocket.NotText, "it is not UTF-8", desk.put, "\udc80", b"")
            self.refuses(pocket.NotText, "it is not UTF-8", desk.run, *COMPRESS, "\udc80")
            self.assertEqual(desk.get("s"), STORE[:10])
            names = ("x" * 200 + "\u00fc", "x\0", "")
            for name in names:
                desk.put(name, b"")
            self.assertEqual(desk.names(), ["", "s", "x", "x\0", "x" * 200 + "\u00fc"])
            for name in names:
                desk.remove(name)
            self.refuses(pocket.NotKept, "no such name is kept", desk.remove, "none")
            self.refuses(pocket.NotText, "it is not UTF-8", desk.remove, "\udc80")
            desk.put("x", RECORDING)
            desk.remove("x")
            self.assertEqual((desk.names(), desk.get("x"), desk.get("s")), (["s"], b"", STORE[:10]))
            self.refuses(pocket.Refused, "reading failed", desk.run, *COMPRESS)
            desk.put("x", RECORDING)
            desk.put("s", STORE[:19])
            with self.assertRaisesRegex(pocket.Refused, "^store packet at byte 10 is cut$") as refusal:
                desk.run(*RESTORE)
            self.assertEqual((refusal.exception.exit_number, desk.get("b")), (4, b""))
        for call, *words in ((desk.put, "x", b""), (desk.run, *COMPRESS), (desk.get, "x"), (desk.remove, "x"), (desk.names,)):
            self.refuses(pocket.Closed, CLOSED, call, *words)

    def test_library(self):
        """The functions with the checks are found by their names, and it has a text for each answer that has an error of its own."""
        library = ctypes.CDLL(os.environ["POCKET_LIBRARY"])
        library.pocket_version.restype = library.pocket_status_text.restype = ctypes.c_char_p
        self.assertEqual(library.pocket_version().decode(), pocket.__version__)
        self.assertNotIn(b"no call answers this", [library.pocket_status_text(status) for status in REFUSED])
        for call in "sender_open sender_reset send sent receiver_open receiver_reset receive counts bits desk_open put word run get remove name_from close".split():
            self.assertEqual(getattr(library, "pocket_checked_" + call)(*[None] * 11), 255, call)
