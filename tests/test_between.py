"""What comes between the calls of a handle changes nothing of theirs: signal handlers and finalizers that call it too, interrupts, forks, copies,
and errors that go from process to process."""

import contextlib
import copy
import gc
import multiprocessing
import os
import pickle
import random
import signal
import threading

from library import LibraryTest
import pocket
from pocket import Busy, Desk, Forked, PocketError, Receiver, Refused, Sender

CALLS, LIMIT = 20000, 60


def packets(count):
    """Contents of 64 bits, and the data of packets that tell each whole, whatever came before it."""
    with Sender(64) as sender:
        contents = [random.Random(number).randbytes(8) for number in range(count)]
        return [(it, sender.send(it, 1, send_mask=True, whole=True).data) for it in contents]


class Between:
    """Calls a receiver within the calls of it, as a signal handler or a finalizer does, and tells how often that was refused."""

    def __init__(self, receiver, own):
        self.receiver, self.own, self.calls, self.refused, self.wrong = receiver, own, 0, 0, 0

    def __call__(self, *_):
        self.calls += 1
        content, data = self.own[self.calls % len(self.own)]
        try:
            self.wrong += self.receiver.receive(self.calls * 31 % 16384, data).content not in (content, None)
        except Busy:
            self.refused += 1


class Collecting:
    """A number at which garbage is collected as it is asked for, so within the call that takes it."""

    def __init__(self, number):
        self.number = number

    def __index__(self):
        gc.collect()
        return self.number


class Interrupter:
    """Interrupts a call at a random moment, as Ctrl-C does, and tells how often it did. Python may hand a signal on late: then it is none."""

    def __init__(self, draw):
        self.draw, self.count, self.is_armed = draw, 0, False

    def stop(self, *_):
        if self.is_armed:
            self.is_armed = False
            raise KeyboardInterrupt

    def __call__(self, call, was_made, last):
        """What a call gives that is interrupted, and then was made, or is made again."""
        try:
            self.is_armed = True
            signal.setitimer(signal.ITIMER_REAL, self.draw.uniform(1e-6, 6e-5))
            found = call()
            self.is_armed = False
            return found
        except KeyboardInterrupt:
            self.count += 1
            return last() if was_made() else call()


def fail(kind):
    """Raises an error of a kind, in a process of a pool."""
    raise kind("it is so", 3) if kind is Refused else kind("it is so")


class Calls(LibraryTest):
    def alarm(self, handler):
        """Has signals handled so until the test ends."""
        self.addCleanup(signal.signal, signal.SIGALRM, signal.signal(signal.SIGALRM, handler))
        self.addCleanup(signal.setitimer, signal.ITIMER_REAL, 0)

    def test_signals(self):
        """A signal handler that calls a receiver within a call of it changes nothing of what that call finds."""
        own = packets(64)
        with Receiver(64) as receiver:
            between = Between(receiver, own)
            self.alarm(between)
            signal.setitimer(signal.ITIMER_REAL, 5e-5, 5e-5)
            for number in range(CALLS):
                content, data = own[number % len(own)]
                self.assertIn(receiver.receive(number % 16384, data).content, (content, None))
            signal.setitimer(signal.ITIMER_REAL, 0)
        self.assertEqual(between.wrong, 0)
        self.assertGreater(between.calls, 0)

    def test_finalizers(self):
        """The same of a finalizer, which the collector of garbage runs within a call."""
        own = packets(300)
        with Receiver(64) as receiver:
            between = Between(receiver, own)
            kind = type("Left", (), {"__del__": between})
            for number, (content, data) in enumerate(own):
                left = kind()
                left.own = left
                del left
                self.assertEqual(receiver.receive(Collecting(number), data).content, content)
        self.assertEqual((between.wrong, between.refused), (0, len(own)))

    def test_interrupts(self):
        """No packet is lost or made twice by interrupts: those of a sender and a receiver are those of calls that were not interrupted."""
        draw = random.Random(9)
        interrupted = Interrupter(draw)
        self.alarm(interrupted.stop)
        with Sender(64) as sender, Sender(64) as whole, Receiver(64) as receiver:
            for number in range(CALLS // 5):
                content = draw.randbytes(8)
                sent = interrupted(lambda: sender.send(content, 1), lambda: sender.sent == number + 1, sender.last)
                found = interrupted(lambda: receiver.receive(number % 16384, sent.data), lambda: receiver.counts().packets == number + 1, receiver.last)
                self.assertEqual((sent, found.number, found.content), (whole.send(content, 1), number, content))
            signal.setitimer(signal.ITIMER_REAL, 0)
            self.assertGreater(interrupted.count, 0)
            told = []
            other = threading.Thread(target=lambda: told.append(sender.sent), daemon=True)
            other.start()
            other.join(LIMIT)
            self.assertEqual(told, [CALLS // 5], "another thread may call it then")

    def test_last(self):
        """There is no last packet before the first, and what is refused is none."""
        with Sender(8) as sender, Receiver(8) as receiver:
            self.assertEqual((sender.last(), receiver.last()), (None, None))
            sent, found = sender.send(b"\xb0", 1), receiver.receive(0, b"\x00")
            for call in (lambda: sender.send(b"", 1), lambda: receiver.receive(16384, b"")):
                self.assertRaises(PocketError, call)
            self.assertEqual((sender.last(), receiver.last()), (sent, found))

    def test_forks(self):
        """A fork's child is told that its parent's handles aren't its own, and the parent's stay as they are."""
        with Sender(8) as sender, Receiver(8) as receiver, Sender(8) as other:
            child = os.fork()
            if not child:
                with contextlib.suppress(Exception):
                    os._exit(in_child(sender, receiver))
                os._exit(1)
            self.assertEqual(os.waitstatus_to_exitcode(os.waitpid(child, 0)[1]), 0)
            self.assertEqual((sender.send(b"\xb0", 1), receiver.counts().packets), (other.send(b"\xb0", 1), 0))

    def test_copies(self):
        """A handle is not copied. What has no state is not pickled either."""
        for made in (Sender(8), Receiver(8), Desk()):
            for way in (copy.copy, copy.deepcopy, *[pickle.dumps] * isinstance(made, Desk)):
                with self.subTest(way.__name__, of=type(made).__name__):
                    self.assertRaises(TypeError, way, made)

    def test_errors(self):
        """Each error goes from process to process as it is."""
        kinds = [it for it in vars(pocket).values() if isinstance(it, type) and issubclass(it, PocketError)]
        self.assertGreater(len(kinds), 15)
        with multiprocessing.get_context("spawn").Pool(1) as pool:
            for kind in kinds:
                with self.subTest(kind.__name__), self.assertRaises(PocketError) as error:
                    pool.apply_async(fail, [kind]).get(LIMIT)
                found = error.exception
                self.assertEqual((type(found), str(found), getattr(found, "exit_number", 3)), (kind, "it is so", 3))


def in_child(sender, receiver):
    """The exit status of a fork's child: 0 if all is as it has to be."""
    told = 0
    for call in (lambda: sender.send(b"\xb0", 1), lambda: sender.sent, receiver.counts, receiver.close):
        try:
            call()
        except Forked:
            told += 1
    with Sender(8) as own:
        return 0 if told == 4 and own.send(b"\xb0", 1).level == 1 else 1
