"""States from Python: streams that are cut at random by save and load go on as uncut ones; states are loaded into new and open handles and
pickled; what is no state is refused; those of earlier releases (tests/states) go on; and Space Packets of many APIDs in any pieces."""

import os
import pathlib
import pickle
import random
import zlib

from library import LibraryTest
from packets import moving, packet
from pocket import BitsOutOfRange, NoState, Receiver, Receivers, Sender, StoreError

STREAMS, STORED = 60, os.path.join(os.path.dirname(os.path.abspath(__file__)), "states")


def again(draw, held):
    """A handle that goes on from the state of one: a new one, an open one, or a pickled one."""
    state = held.save()
    way = draw.randrange(3)
    if way == 0:
        return type(held).load(state)
    if way == 1:
        other = type(held)(held.bits)
        other.load(state)
        return other
    return pickle.loads(pickle.dumps(held))


class States(LibraryTest):
    def test_cut_streams(self):
        """Streams that are cut anywhere are those that are not."""
        draw = random.Random(5)
        for stream in range(STREAMS):
            bits, robustness = draw.choice([1, 7, 8, 13, 64, 100, 1024]), draw.randrange(8)
            sender, whole, receiver, other = Sender(bits), Sender(bits), Receiver(bits), Receiver(bits)
            with self.subTest(stream):
                for number, content in enumerate(moving(draw, bits, 60)):
                    flags = {name: number > 0 and draw.random() < 0.1 for name in ("new_mask", "send_mask", "whole")}
                    sent = sender.send(content, robustness, **flags)
                    self.assertEqual(sent, whole.send(content, robustness, **flags))
                    if draw.random() < 0.7:
                        found = receiver.receive(number, sent.data)
                        self.assertEqual(found, other.receive(number, sent.data))
                        self.assertIn(found.content, (content, None))
                    sender = again(draw, sender) if draw.random() < 0.1 else sender
                    receiver = again(draw, receiver) if draw.random() < 0.1 else receiver
                self.assertEqual((receiver.counts(), receiver.save(), sender.save()), (other.counts(), other.save(), whole.save()))
                self.assertEqual(receiver.next_number, receiver.counts().written + receiver.counts().listed)

    def test_refused(self):
        """What is no state is refused, whatever byte it is, and changes nothing."""
        with Sender(100) as sender, Receiver(100) as receiver:
            for number, content in enumerate(moving(random.Random(6), 100, 20)):
                receiver.receive(number, sender.send(content, 2).data)
            for held, other in ((sender, receiver), (receiver, sender)):
                state = held.save()
                self.assertEqual(zlib.crc32(state[:-4]), int.from_bytes(state[-4:], "big"))
                bad = [state[:place] + bytes([state[place] ^ 1 << place % 8]) + state[place + 1:] for place in range(len(state))]
                bad += [state[:cut] for cut in range(len(state))] + [state + b"\0", other.save()]
                bad += [state[:6] + bits.to_bytes(4, "big") + state[10:] for bits in (0, 99, 49153, 2**32 - 1)]
                for one in bad:
                    for load in (type(held).load, held.load):
                        with self.assertRaises(NoState, msg=f"{type(held).__name__}: {one[:12].hex()}.. of {len(one)}"):
                            load(one)
                self.assertEqual(held.save(), state, f"after {len(bad)} refusals")

    def test_stored(self):
        """The states of earlier releases are read, and go on as the streams from which they were saved."""
        names = sorted(os.listdir(STORED))
        self.assertEqual(len(names), 8, "both kinds with four numbers of bits")
        for name in names:
            kind, bits = name.removesuffix(".state").split("-")
            state = pathlib.Path(STORED, name).read_bytes()
            sender, receiver = Sender(int(bits)), Receiver(int(bits))
            with self.subTest(name):
                for number, content in enumerate(moving(random.Random(int(bits)), int(bits), 40)):
                    if number == 30 and kind == "sender":
                        sender = Sender.load(state)
                    if number == 30 and kind == "receiver":
                        receiver = Receiver.load(state)
                    data = sender.send(content, 2, new_mask=number % 10 == 9).data
                    if number % 7 != 3:
                        found = receiver.receive(number, data)
                        self.assertTrue(number < 30 or found.content == content, f"packet {number}")
                self.assertEqual((sender.sent, receiver.next_number), (40, 40))

    def test_pieces(self):
        """Space Packets of many APIDs in any pieces are judged as by receivers of their own, and others are counted."""
        draw, bits = random.Random(7), {100: 64, 101: 13, 2046: 1}
        wanted, stream, passed = [], b"", {"idle": 0, "unknown": 0, "misshapen": 0}
        senders, own = ({apid: kind(number) for apid, number in bits.items()} for kind in (Sender, Receiver))
        for _ in range(300):
            apid = draw.choice(list(bits))
            number, content = senders[apid].sent, draw.getrandbits(bits[apid]) << -bits[apid] % 8
            data = senders[apid].send(content.to_bytes((bits[apid] + 7) // 8, "big"), 2).data
            if draw.random() < 0.9:
                wanted.append((apid, own[apid].receive(number, data)))
                stream += packet(apid, number, data)
            for name, header in (("idle", "07FFC000"), ("unknown", "0005C000"), ("misshapen", "0864C000"), ("misshapen", "00644000")):
                if draw.random() < 0.05:
                    stream += bytes.fromhex(header) + b"\x00\x01ab"
                    passed[name] += 1
        found, rest = [], stream
        with Receivers(bits) as receivers:
            while rest:
                size = draw.randrange(1, 40)
                found += receivers.feed(rest[:size])
                rest = rest[size:]
            self.assertEqual((found, receivers.bytes, receivers.left), (wanted, len(stream), 0))
            self.assertEqual({name: getattr(receivers, name) for name in passed}, passed)
            self.assertEqual({apid: receivers[apid].counts() for apid in receivers}, {apid: own[apid].counts() for apid in own})
            list(receivers.feed(b"\x00\x64\xc0"))
            self.assertEqual(receivers.left, 3)
            with self.assertRaisesRegex(StoreError, f"^the packet at byte {len(stream) + 7} is of another version$"):
                list(receivers.feed(b"\x00\x00\x00\xff\x20\x00\x00\x00\x00\x00\x01"))
        for wrong, kind in (({2047: 8}, StoreError), ({-1: 8}, StoreError), ({1: 0}, BitsOutOfRange)):
            with self.subTest(receivers=wrong):
                self.assertRaises(kind, Receivers, wrong)
