"""The example of many spacecraft (library/examples/fleet) over a Redis of its own, of which all parts are killed or stopped while they work.
What is read back is what the program's `multi` gives of each spacecraft's packets. It takes Debian's python3-redis, which is its Python's."""

import contextlib
import io
import itertools
import json
import os
import signal
import subprocess
import sys
import tempfile
import time
import unittest
import zlib
from unittest import mock

from library import LibraryTest, need
from packets import packets_of
from program import PROGRAM, SAMPLES, Folder
from rows import sample

try:
    import redis
except ImportError:
    raise unittest.SkipTest("this Python has no python3-redis") from None
from fleet_parts import APIDS, FLEET, Engine, Fleet, Keeper, begun, ran, until, wait

sys.path.insert(0, FLEET)
import feed
import read
import work

SPACECRAFT, PACKETS, ROUNDS = 1000, 30, 2
# The workers, and the seconds that each may hold a partition.
WORKERS, LEASE = 4, 1.0


def upset(draw, engine, *keepers):
    """At random moments kills two workers, a reader, a feeder and the server, and lets a worker hang for longer than its lease."""
    workers, reader, feeders = keepers
    for kind in draw.sample(["worker", "worker", "feeder", "reader", "hang", "server"], 6):
        wait(draw.random() * 0.3, *keepers)
        if kind == "hang":
            hung = workers.signal(draw, signal.SIGSTOP)
            wait(LEASE * 1.5, *keepers)
            hung.send_signal(signal.SIGCONT)
        elif kind == "server":
            engine.kill()
            wait(draw.random() * 0.3, *keepers)
            engine.start()
        else:
            {"worker": workers, "reader": reader, "feeder": feeders}[kind].signal(draw, signal.SIGKILL)


class Died(BaseException):
    """A program ends here."""


@contextlib.contextmanager
def dying(place, is_sent, kind):
    """Ends what is run, or its connection, at its call of this place to the engine, before it is sent or before it is answered."""
    send, calls = redis.Connection.send_packed_command, itertools.count()

    def sent(self, *words, **how):
        number = next(calls)
        if number != place or is_sent:
            send(self, *words, **how)
        if number == place:
            raise kind

    with mock.patch.object(redis.Connection, "send_packed_command", sent), contextlib.suppress(Died, redis.RedisError):
        yield


class Points(LibraryTest):
    """The points of a reader, of an engine that has two batches of a spacecraft and no more."""

    def test_clock(self):
        """Of a batch in which the clock stands still no point is printed, which is told; it is taken out, and the next one is printed."""
        room = Folder(self.enterContext(tempfile.TemporaryDirectory(prefix="pocket-points-")))
        room.put("fields", "field,0,8,u,clock\n")
        stores = [b"".join(bytes.fromhex(f"0064C00{count}0000{clock:02X}") for count, clock in some) for some in (((0, 5), (1, 5)), ((2, 7), (3, 8)))]
        entries = [(f"{place}-0", {b"craft": b"X1", b"report_at": b"0", b"report": b"", b"store_at": str(14 * place).encode(), b"store": store,
                                   b"numbers": json.dumps({"100": [2 * place, 2 * place + 1]}).encode()}) for place, store in enumerate(stores)]
        engine = mock.Mock(**{"hget.return_value": b'{"100": 8}', "xrange.return_value": entries})
        said = {"fields": room.at("fields"), "apid": "100", "time": "clock", "epoch": "1970-01-01T00:00:00Z", "unit": "1"}
        out, told = io.StringIO(), io.StringIO()
        with contextlib.redirect_stdout(out), contextlib.redirect_stderr(told):
            self.assertEqual(read.write(engine, room.folder, "found", said, read.numbers.Clock(said)), 2)
        self.assertEqual(out.getvalue(), "".join(f"pocket,spacecraft=X1,apid=100 number={number}i,clock={clock}i {clock}000000000\n" for number, clock in ((2, 7), (3, 8))))
        self.assertEqual(told.getvalue(), "X1: the packets 0 and 1 have one time, 1970-01-01T00:00:05Z: Influx would keep one of them alone\n")
        self.assertEqual(room.get("X1.store"), b"".join(stores))
        engine.xdel.assert_called_once_with("found", "0-0", "1-0")


class Spacecraft(LibraryTest):
    @classmethod
    def setUpClass(cls):
        super().setUpClass()
        need("redis-server")
        folder = cls.enterClassContext(tempfile.TemporaryDirectory(prefix="pocket-fleet-"))
        cls.engine = Engine(folder)
        cls.engine.start()
        cls.addClassCleanup(cls.engine.kill)
        cls.fleet = Fleet(PROGRAM, folder, SPACECRAFT, PACKETS)

    def setUp(self):
        self.engine.client.flushall()
        self.folder, self.names = tempfile.mkdtemp(dir=self.fleet.folder), self.fleet.names[:3]

    def small(self):
        """Feeds half of the packets of three spacecraft, which are not judged."""
        self.fleet.grow(1, 2, self.names)
        self.assertEqual(self.fleet.fed(self.engine, self.names).wait(), 0)
        return work.opened(self.engine.place)

    def reads_back(self):
        """A feeder, a worker and a reader that are begun now give what the program restores of the three."""
        self.fleet.grow(1, 1, self.names)
        words = [f"{name}={self.fleet.at(name)}.come" for name in self.names] + ["end"]
        for name, *more in (("feed.py", self.fleet.at("fleet.json"), *words), ("work.py", "0.5"), ("read.py", self.folder)):
            self.assertEqual(ran(name, self.engine.place, *more), (0, "", ""), name)
        self.assertEqual(self.fleet.differing(self.folder, self.names), [])

    def feed_here(self, name):
        """Feeds what came of a spacecraft, in this process."""
        with contextlib.redirect_stderr(io.StringIO()):
            feed.feed(feed.opened(self.engine.place), name, {str(apid): bits for apid, bits in APIDS.items()}, self.fleet.at(name) + ".come")

    def test_hanging(self):
        """A worker that hangs with a batch in hand, until another has judged it and the one after it, writes nothing."""
        client, judged, refused = self.small(), work.judged, []

        def hung(*words):
            work.judged = judged
            work.turn(client, partition)
            self.fleet.grow(3, 4, self.names)
            self.assertEqual(self.fleet.fed(self.engine, self.names).wait(), 0)
            work.turn(client, partition)
            return judged(*words)

        for partition in work.waiting(client)[1]:
            with mock.patch.object(work, "judged", hung):
                try:
                    work.turn(client, partition)
                except redis.WatchError:
                    refused.append(partition)
        self.assertTrue(refused, "it wrote")
        self.reads_back()

    def test_dead(self):
        """The partitions of a dead worker are left to it for the lease, and taken after it."""
        client = self.small()
        for partition in range(client.xlen(work.LEASES)):
            client.xclaim(work.LEASES, work.GROUP, "dead", 0, [f"{partition + 1}-0"], force=True)
        known, worker = len(client.client_list()), begun("work.py", self.engine.place, "1000")
        until(lambda: len(client.client_list()) > known)
        time.sleep(1)
        self.assertEqual([client.hget(f"fleet:state:{name}", "packets") for name in self.names], [None] * 3)
        worker.kill()
        worker.wait()
        self.reads_back()

    def test_calls(self):
        """A feeder, a worker and a reader that end, or whose connection does, at any call to the engine leave all as it was, or done."""
        never, deaths = (99, False, Died), list(itertools.product(range(8), (False, True), (Died, redis.ConnectionError)))
        for part, death in enumerate(deaths, 1):
            self.fleet.grow(part, len(deaths) + 1, self.names)
            for how in (death, never):
                for name in self.names:
                    with dying(*how):
                        self.feed_here(name)
            for how in (death, never):
                for partition in feed.waiting(self.engine.client)[1]:
                    with dying(*how):
                        work.turn(redis.Redis("127.0.0.1", self.engine.port), partition)
            for partition in range(feed.PARTITIONS):
                with dying(*death):
                    read.write(redis.Redis("127.0.0.1", self.engine.port), self.folder, f"fleet:found:{partition}", {}, None)
        self.reads_back()

    def test_two_feeders(self):
        """Two feeders of one file put its packets once, if one comes between what the other asks and puts, which may be refused then."""
        crc32, begun_here = zlib.crc32, []
        self.fleet.grow(1, 1, self.names)

        def between(text):
            if len(begun_here) % 2 == 0:
                begun_here.append(text)
                self.feed_here(text.decode())
            return crc32(text)

        for name in self.names:
            with mock.patch.object(zlib, "crc32", between), contextlib.suppress(feed.PocketError):
                self.feed_here(name)
            begun_here.append(name)
        self.reads_back()

    def test_pipe(self):
        """A pipe is fed whole that comes slowly, while the server is killed and begun again."""
        client, name = self.small(), self.fleet.names[3]
        feeder = begun("feed.py", self.engine.place, self.fleet.at("fleet.json"), name + "=-", stdin=subprocess.PIPE)
        store, size = self.fleet.stores[name], len(self.fleet.stores[name]) // 8
        for at in range(0, len(store), size):
            feeder.stdin.write(store[at:at + size])
            feeder.stdin.flush()
            if at == 0:
                until(lambda: client.hget(f"fleet:fed:{name}", "packets"))
            elif at in (2 * size, 5 * size):
                self.engine.kill()
                time.sleep(0.3)
                self.engine.start()
        feeder.stdin.close()
        self.assertEqual(feeder.wait(), 0)
        self.reads_back()
        self.assertEqual(self.fleet.differing(self.folder, [name]), [])

    def test_points(self):
        """The points that are printed are those of the tool `numbers` over what the program restores."""
        fleet, fields = self.fleet, "fields=" + os.path.join(SAMPLES, "hk.csv")
        times = ["apid=100", "start=2026-11-30T06:00:00Z", "step=1", fields]
        fleet.put("script", "drop,3,4,1\ndrop,20,22,1\n")
        fleet.run("play", "in=" + os.path.join(SAMPLES, "hk.store"), "out=hk.come", "report=-", "script=script", "apid=100")
        fleet.run("restore", "in=hk.come", "out=hk.rec", "report=hk.report", "bits=64", "apid=100")
        fleet.run("multi", "in=hk.come", "out=-", "report=hk.multi", "streams=streams")
        fleet.run("table", "in=hk.rec", "out=hk.table", "report=-", fields, "bits=64")
        words = ["table=hk.table", "report=hk.multi", "as=influx", "bits=64", "tag=spacecraft:SC-00000", *times]
        wanted = subprocess.run([sys.executable, "-m", "pocket", "numbers", *words], cwd=fleet.folder, capture_output=True, check=True).stdout.decode()
        self.assertGreater(wanted.count("\n"), 30)
        self.assertEqual(ran("feed.py", self.engine.place, fleet.at("fleet.json"), "SC-00000=" + fleet.at("hk.come"), "end"), (0, "", ""))
        self.assertEqual(ran("work.py", self.engine.place), (0, "", ""))
        self.assertEqual(ran("read.py", self.engine.place, self.folder, *times), (0, wanted, ""))

    def test_refused(self):
        """What is refused, each in a line: the words, and what the line says."""
        packets, fleet, place = self.fleet.stores["SC-00000"], self.fleet, self.engine.place
        wrong, streams = fleet.at("wrong"), fleet.at("fleet.json")
        fleet.grow(1, 1, self.names[:1])
        at = len(next(packets_of(packets)))
        fleet.put("other", packets[:at] + bytes.fromhex("2064C000000011") + packets[at:])
        fleet.put("wrong", json.dumps({"SC-00000": {"100": 65}, "SC-00001": {"100": "64"}, "SC-00002": {"2047": 1}, "SC-00003": {"1": 49153}, "SC-00004": [],
                                      "../a": {}}))
        fleet.put("cut", '{"SC-00000":\n')
        fleet.put("hk.come", sample("hk.store"))
        self.assertEqual(ran("feed.py", place, streams, f"SC-00000={fleet.at('hk.come')}")[0], 0)
        rows = [("feed.py", [place, fleet.at("cut")], "Expecting value: line 2 column 1"), ("feed.py", [place, "nothing"], "nothing"),
                ("feed.py", [place, wrong, f"SC-00000={fleet.at('SC-00000.come')}"], "its streams are others than before"),
                *(("feed.py", [place, wrong, f"{name}={fleet.at('hk.come')}"], f"{name}={fleet.at('hk.come')}: {text}") for name, text in
                  [("SC-00001", "'str' object"), ("SC-00002", "an APID is not"), ("SC-00003", "a vector has 1 to 49152"), ("SC-00004", "'list' object"),
                   ("SC-00005", f"{wrong} has no streams of it"), ("../a", "a spacecraft is named as a file is")]),
                ("feed.py", [place, streams, "SC-00000=" + fleet.at("other")], f"the packet at byte {at} is of another version"),
                ("feed.py", [place, streams, "SC-00001=nothing"], "No such file or directory: 'nothing'"),
                ("feed.py", ["localhost", streams], "invalid literal"), ("work.py", ["localhost:1"], "Connection refused"),
                ("work.py", [place, "soon"], "could not convert"), ("read.py", [place, self.folder, "apid=1"], "fields="),
                ("read.py", [place, self.folder, "fields=x", "apid=1", "step=1"], "start=")]
        for name, words, text in rows:
            with self.subTest(name, words=words[1:]):
                status, out, told = ran(name, *words)
                self.assertEqual((status, out, told.count("\n")), (1, "", 1), told)
                self.assertIn(text, told)

    def test_whole(self):
        """Feeds, judges and reads all, and kills in each round: what is read back is that of the program, and all is counted."""
        fleet, engine = self.fleet, self.engine
        told = self.enterContext(open(fleet.at("told"), "a+b"))
        workers = Keeper([lambda: begun("work.py", engine.place, str(LEASE), stderr=told)] * WORKERS)
        self.addCleanup(workers.end)
        reader = Keeper([lambda: begun("read.py", engine.place, self.folder, stderr=told)])
        self.addCleanup(reader.end)
        begun_anew = 0
        for part in range(1, ROUNDS + 1):
            fleet.grow(part, ROUNDS)
            feeders = Keeper([lambda some=fleet.names[one::4]: fleet.fed(engine, some, told) for one in range(4)])
            self.addCleanup(feeders.end)
            upset(fleet.draw, engine, workers, reader, feeders)
            until(lambda: (workers.are_done(), reader.are_done(), feeders.are_done())[2])
            begun_anew += feeders.restarts
        self.assertEqual(ran("feed.py", engine.place, fleet.at("fleet.json"), "end")[0], 0)
        until(lambda: (workers.are_done(), reader.are_done()) == (True, True))
        print(f"fleet: begun anew: {workers.restarts} workers, {reader.restarts} readers, {begun_anew} feeders", flush=True)
        with self.subTest("what is read back is what the program restores of each spacecraft"):
            self.assertEqual(fleet.differing(self.folder)[:5], [])
        with self.subTest("each packet is counted once"):
            rows, packets = ran("read.py", engine.place)[1].splitlines(), sum(len(list(packets_of(store))) for store in fleet.stores.values())
            self.assertEqual((len(rows), rows[-1]), (len(fleet.names) + 2, f"all,{packets},{packets},0"))
        with self.subTest("nothing that ended told a traceback"):
            told.seek(0)
            self.assertNotIn("Traceback", told.read().decode())
