"""What the test of many spacecraft (test_fleet.py) is made of: a Redis of its own, the packets of spacecraft with what the program restores of
them, and the programs of the example, which are begun anew as a service manager does."""

import contextlib
import functools
import json
import os
import random
import socket
import subprocess
import sys
import time
from concurrent.futures import ThreadPoolExecutor

import redis
from packets import moving, packets_of
from program import TOP, Folder, wait_for

FLEET = os.path.join(TOP, "library", "examples", "fleet")
# The bits of the two APIDs of each spacecraft, and the recordings of each of which its packets are taken.
APIDS, RECORDINGS = {100: 64, 101: 1000}, 12
# What takes longer has failed: it bounds the whole, and decides nothing else.
LIMIT = 3600
until = functools.partial(wait_for, limit=LIMIT)


def is_free(port):
    """Whether nobody has a port of the loopback."""
    with contextlib.suppress(OSError), socket.socket() as tried:
        tried.bind(("127.0.0.1", port))
        return True
    return False


class Engine:
    """A server on a free port of the loopback, which keeps a log of all that it answered. The port is none that the system gives to
    connections: one of these could take it while the server is away."""

    def __init__(self, folder):
        self.folder, self.process = folder, None
        self.port = next(port for port in random.sample(range(10000, 32768), 1000) if is_free(port))
        self.place = f"127.0.0.1:{self.port}"

    def start(self):
        words = f"--port {self.port} --bind 127.0.0.1 --appendonly yes --appendfsync always".split()
        self.process = subprocess.Popen(["redis-server", *words, "--save", "", "--dir", self.folder], stdout=subprocess.DEVNULL)
        self.client = redis.Redis("127.0.0.1", self.port)
        until(self.answers)

    def answers(self):
        with contextlib.suppress(redis.ConnectionError):
            return self.client.ping()
        if self.process.poll() is not None:
            raise RuntimeError(f"redis-server ended with {self.process.poll()}")

    def kill(self):
        self.process.kill()
        self.process.wait()


def begun(name, *words, **how):
    """A program of the example."""
    return subprocess.Popen([sys.executable, os.path.join(FLEET, name), *words], **how)


def ran(name, *words, given=b""):
    """How a program of the example ended, and what it wrote."""
    found = subprocess.run([sys.executable, os.path.join(FLEET, name), *words], input=given, capture_output=True, timeout=LIMIT)
    return found.returncode, found.stdout.decode(), found.stderr.decode()


class Fleet(Folder):
    """The packets of spacecraft as they came, in files that grow, and what the program restores of them."""

    def __init__(self, program, folder, number, packets):
        super().__init__(folder)
        self.program, self.draw = program, random.Random(84)
        self.names = [f"SC-{one:05}" for one in range(number)]
        self.put("fleet.json", json.dumps({name: APIDS for name in self.names}))
        self.put("streams", "".join(f"{apid},{bits}\n" for apid, bits in APIDS.items()))
        self.put("plan", "0,4294967295,10,p\n9,4294967295,9,fr\n")
        recordings = {apid: [self.sent(apid, bits, packets) for _ in range(RECORDINGS)] for apid, bits in APIDS.items()}
        self.stores = {name: self.arrived({apid: self.draw.choice(some) for apid, some in recordings.items()}) for name in self.names}
        with ThreadPoolExecutor(os.cpu_count()) as pool:
            self.truth = dict(zip(self.names, pool.map(self.restored, self.names)))

    def run(self, *words, given=b""):
        return subprocess.run([self.program, *words], input=given, capture_output=True, cwd=self.folder, check=True).stdout

    def sent(self, apid, bits, number):
        """The packets of a recording of which few places move."""
        recording = b"".join(moving(self.draw, bits, number))
        return list(packets_of(self.run("compress", "in=-", "out=-", f"bits={bits}", f"apid={apid}", "robust=1", "plan=plan", given=recording)))

    def arrived(self, streams):
        """What came of streams: woven into each other, some packets lost, some twice, some damaged, and some that are no stream's."""
        left, store = {apid: iter(packets) for apid, packets in streams.items()}, b""
        while left:
            apid, draw = self.draw.choice(list(left)), self.draw.random()
            packet = next(left[apid], b"")
            if not packet:
                del left[apid]
            elif draw < 0.02:
                bit = self.draw.randrange(8 * len(packet) - 48)
                packet = (int.from_bytes(packet, "big") ^ 1 << bit).to_bytes(len(packet), "big")
            store += b"" if 0.02 < draw < 0.08 else packet * 2 if draw > 0.97 else packet
            if 0.9 < draw < 0.93:
                store += bytes.fromhex(self.draw.choice(["07FFC000000011", "0300C000000011", "1064C000000011", "00654001000011"]))
        return store

    def restored(self, name):
        """What `multi` gives of what came of a spacecraft."""
        store = self.run("multi", "in=-", "out=-", f"report={name}.truth", "streams=streams", given=self.stores[name])
        return self.get(f"{name}.truth"), store

    def grow(self, part, whole, names=()):
        """Lets the files of spacecraft have more of what came, cut anywhere."""
        for name in names or self.names:
            self.put(name + ".come", self.stores[name][:len(self.stores[name]) * part // whole])

    def fed(self, engine, names, told=subprocess.DEVNULL):
        """Begins to feed the files of spacecraft."""
        return begun("feed.py", engine.place, self.at("fleet.json"), *(f"{name}={self.at(name)}.come" for name in names), stderr=told)

    def differing(self, folder, names=()):
        """The spacecraft of which something else was read back."""
        found = lambda name: tuple(Folder(folder).get(f"{name}.{kind}") for kind in ("report", "store"))
        return [name for name in names or self.names if found(name) != self.truth[name]]


class Keeper:
    """Begins each program anew that did not end by itself with 0, as a service manager does."""

    def __init__(self, commands):
        self.commands, self.running, self.restarts = commands, [begin() for begin in commands], 0

    def are_done(self):
        for place, process in enumerate(self.running):
            if process.poll() not in (None, 0):
                self.running[place], self.restarts = self.commands[place](), self.restarts + 1
        return all(process.poll() == 0 for process in self.running)

    def signal(self, draw, kind):
        process = draw.choice([one for one in self.running if one.poll() is None] or self.running)
        process.send_signal(kind)
        return process

    def end(self):
        for process in self.running:
            process.kill()
            process.wait()


def wait(seconds, *keepers):
    """Waits, and begins anew what ended."""
    end = time.monotonic() + seconds
    while time.monotonic() < end:
        for keeper in keepers:
            keeper.are_done()
        time.sleep(0.02)
