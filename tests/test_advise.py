"""`python3 -m pocket advise` over random losses: under the schedule that it writes `forecast` calls every packet sure that arrives, whichever
shift of the losses comes, and it finds one where a walk of its own over the packets does."""

import random
import tempfile
from unittest import mock

from library import LibraryTest, ToolFolder
from pocket import advise

ROUNDS = 40


def heads_of(lost, packets, robust):
    """The packets that have to carry mask and whole content: each that arrives when more than the robustness allows are missing before it."""
    found, sure = [], -1
    for number in range(packets):
        if number in lost:
            continue
        if number > robust and (sure < 0 or number - 1 - sure > robust):
            found.append(number)
        sure = number
    return found


def fewest(heads):
    """The least number of runs of equal steps into which a rising list can be cut."""
    least = [0] + [len(heads)] * len(heads)
    for end in range(1, len(heads) + 1):
        for begin in range(end):
            run = heads[begin:end]
            if len({second - first for first, second in zip(run, run[1:])}) < 2:
                least[end] = min(least[end], least[begin] + 1)
    return least[len(heads)]


def later(rows, by, packets):
    """Rows of a script whose packets are dropped so many packets later, packet by packet."""
    lost = {number + by for first, last, step in rows for number in range(first, last + 1, step)}
    return "".join(f"drop,{number},{number},1\n" for number in sorted(lost) if 0 <= number < packets)


def is_open(packets, robust, plan, script):
    """Whether a packet is open."""
    return ",open" in advise.forecast(packets, robust, plan, script.encode())


def drawn(draw, packets):
    """Random rows of a script that drops packets: in a row, or again and again."""
    rows = []
    for _ in range(draw.randrange(9)):
        first, length, step = draw.randrange(packets), draw.choice([1, 2, 5, 9, 9]), draw.choice([1, 1, 1, 20])
        rows += [(first, min(first + length - 1, packets - 1), 1)] if step == 1 else [(first + k, packets - 1, step) for k in range(length) if first + k < packets]
    return rows


class Advise(LibraryTest):
    def setUp(self):
        self.files = ToolFolder(self.enterContext(tempfile.TemporaryDirectory(prefix="pocket-advise-")))

    def put(self, rows):
        self.files.put("script", "".join(f"drop,{first},{last},{step}\n" for first, last, step in rows))

    def plan(self, *words):
        """The schedule that the tool writes, or its refusal; it tells more."""
        return self.files.run(advise, *words, "script=script")

    def test_rounds(self):
        """Random losses: the rows that are found make all sure, under each shift that was said, and robust is no greater than with runs one
        after the other."""
        draw, found = random.Random(20261130), []
        for turn in range(ROUNDS):
            packets, shift, most = draw.randrange(20, 200), draw.choice([0, 0, 1, 4]), draw.randrange(4)
            with self.subTest(turn):
                found.append(self.round(drawn(draw, packets), packets, shift, most))
        self.assertGreater(min(found.count(True), found.count(False)), ROUNDS // 10)

    def round(self, rows, packets, shift, most):
        """Whether rows were found."""
        self.put(rows)
        lost = {number for first, last, step in rows for number in range(first, last + 1, step)}
        plan = self.plan(f"packets={packets}", f"rows={most}", *([f"shift={shift}"] if shift else []))
        wanted = next((robust for robust in range(8) if fewest(heads_of(lost, packets, robust)) <= most), None) if not shift else None
        if isinstance(plan, str):
            self.assertEqual((wanted, plan), (None, f"found no robust, 0 to 7, with at most {most} rows that make all sure that arrives"))
            return False
        robust = int(self.files.told.split("robust=")[-1].split(",")[0])
        self.assertTrue((wanted is None or robust <= wanted) and len(plan.splitlines()) <= most, f"{self.files.told}, and {wanted} does")
        self.assertEqual([by for by in range(-shift, shift + 1) if is_open(packets, robust, plan, later(rows, by, packets))], [])
        return True

    def test_fades(self):
        """Two fades in each hundred packets take two rows; what is missing, wrong or not there is refused."""
        self.put((first + k, 999, 100) for first in (16, 46) for k in range(3))
        plan = self.plan("packets=1000", "rows=3")
        self.assertEqual(sorted(plan.splitlines()), [b"19,919,100,fr", b"49,949,100,fr"])
        self.assertRegex(self.files.told, "pocket advise: robust=0, 2 rows\n$")
        with mock.patch.object(advise, "SECONDS", 0):
            self.plan("packets=1000", "rows=3")
        self.assertRegex(self.files.told, "^pocket advise: robust=0, 1 packets with whole content so far\n")
        script = self.files.get("script")
        self.assertEqual(advise.by_program(("forecast", "packets=1000", "robust=0"), plan, script), advise.forecast(1000, 0, plan, script))
        self.files.put("script", script + b"drop,5,3,1\n")
        self.assertEqual(self.plan("packets=1000", "rows=3", "shift=1"), "script row 7 is wrong")
        self.assertEqual(self.files.run(advise, "packets=9"), "script= is missing")
        for word in ("rows", "shift"):
            for number in ("-1", "1001", "01", ""):
                words = {"packets": "9", "rows": "1", "shift": "0", word: number}
                self.assertEqual(self.plan(*(f"{key}={value}" for key, value in words.items())), f"{word}={number}: {word}= takes a number from 0 to 1000")
        self.assertEqual(self.plan("packets=0", "rows=1"), "packets=0: packets= takes a number from 1 to 1000000")

    def test_shifts(self):
        """Rows that come earlier, and later."""
        self.assertEqual(advise.shifted(b"drop,2,99,20\nrepeat,3,3,1,2\ndrop,5,8,1\n", -4), b"drop,18,95,20\ndrop,1,4,1")
        self.assertEqual(advise.shifted(b'drop,2,4294967295,20\n"repeat",3,3,1,2\n', 4), b"drop,6,4294967295,20\nrepeat,7,7,1,2")
