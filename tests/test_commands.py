"""The program on the table of command lines (rows.py): what each prints, its exit number and its files."""

from program import ProgramTest, ended
from rows import DATA, HEADER, HELP, TEXTS, VERBS, WORDS, case, sample
from table import table

# What --help says of each number: its key, the first and the last one, and a command that takes it and can't be done.
RANGES = [
    ("bits", 1, 49152, "compress in=none out=y bits={} apid=100 robust=1"),
    ("bits", 1, 4096, "trial seed=0 packets=3 bits={} robust=1 out=/dev/full"),
    ("apid", 0, 2046, "show in=none out=y bits=8 apid={}"),
    ("window", 0, 64, "late in=none out=y report=z bits=8 apid=100 window={}"),
    ("robust", 0, 7, "compress in=none out=y bits=8 apid=100 robust={}"),
    ("seed", 0, 4294967295, "trial seed={} packets=3 bits=8 robust=1 out=/dev/full"),
    ("packets", 1, 10000, "trial seed=0 packets={} bits=8 robust=1 out=/dev/full"),
    ("packets", 1, 1000000, "forecast out=y packets={} robust=1 plan=none script=nothing"),
]


class Commands(ProgramTest):
    def test_verbs(self):
        self.each(VERBS)

    def test_wrong_words(self):
        self.each(WORDS)

    def test_wrong_side_texts(self):
        self.each(TEXTS)

    def test_wrong_data(self):
        self.each(DATA)

    def test_ranges(self):
        """A key takes the first and the last number of its range, not those beside it, and help says so: the other words name no input that
        is there, or a trial that can't be written."""
        folder = self.folder({})
        for key, low, high, words in RANGES:
            with self.subTest(words):
                values = [(low, 1), (high, 1), (high + 1, 2)] + [(low - 1, 2)] * (low > 0)
                found = [(value, ended(self.start(words.format(value), cwd=folder))[0]) for value, _ in values]
                self.assertEqual(found, values)
                lines = [line for line in HELP.decode().splitlines() if line.startswith(f"    {key} ")]
                self.assertEqual([f"{low} to {high}" in line for line in lines], [True])

    def test_numbers(self):
        """`table` writes each number of 1 to 64 bits at each place up to 70, signed or not, as table.py does."""
        fields = [f"field,{place},{width},{kind},{kind}{width}at{place}" for place in range(71) for width in range(1, 65) for kind in "us"]
        packets = bytes.fromhex("F00FA55A0123456789ABCDEF80000001FE7F") + bytes(range(18)) + bytes(18) + b"\xff" * 18
        for first in range(0, len(fields), 256):
            rows = fields[first:first + 256]
            self.tabulate(packets, 144, rows + [f"limit,{row.split(',')[4]},-3,3" for row in rows[::2]])

    def test_sample(self):
        """`table` of the sample is that of table.py, and `restore` gives the sample back from its store."""
        self.tabulate(sample("hk.rec"), 64, sample("hk.csv").decode().split())
        self.check(case("", "restore in=x out=y report=- bits=64 apid=100", before={"x": sample("hk.store")}, out=HEADER + b"end,60,60,0\n",
                        after={"y": sample("hk.rec")}))

    def tabulate(self, recording, bits, rows):
        text = "\n".join(rows) + "\n"
        out, report = (part.encode() for part in table(recording, text, bits))
        with self.subTest(rows[0]):
            self.check(case("", f"table in=x out=y report=z fields=s bits={bits}", before={"x": recording, "s": text.encode()}, after={"y": out, "z": report}))
