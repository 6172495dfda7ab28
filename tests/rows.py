"""The command lines that the program is run on, verb by verb, and those that it refuses. What it must print is worked out by hand,
from docs/FORMATS.md, and the summaries of long trials by trial.py, which shares no code with the program."""

import pathlib

from program import SAMPLES, TOP
from trial import trial

RECORDING = bytes.fromhex("B0B1B1B3")
FIRST = bytes.fromhex("0064C000000385B8D600")
SECOND = bytes.fromhex("0064C0010003424B8D62")
THIRD = bytes.fromhex("0064C002000144C0")
FOURTH = bytes.fromhex("0064C0030002C085C0")
STORE = FIRST + SECOND + THIRD + FOURTH
PLAYED, SWAPPED, RESTORED = FIRST + SECOND + FOURTH, FIRST + THIRD + SECOND + FOURTH, bytes.fromhex("B0B1B3")
HEADER = b"first,last,cause,value\n"
REPORT = HEADER + b"2,2,lost,0\nend,3,3,0\n"
LISTING = b"0 written 1 00 00 b0\n1 written 1 01 01 b1\n2-2 lost\n3 written 1 02 03 b3\nend 3 3 0\n"
PLAY_REPORT = b"packets,delivered,dropped,repeats,first,widest\n4,3,1,0,0,2\n"
READ, WRITE = b"pocket: reading failed\n", b"pocket: writing failed\n"

COMPRESS = "compress in=x out=y bits=8 apid=100 robust=1"
PLAY = "play in=x out=y report=z apid=100 script=s"
RESTORE = "restore in=x out=y report=z bits=8 apid=100"
LATE = "late in=x out=y report=z bits=8 apid=100 window=1"
SHOW = "show in=x out=y bits=8 apid=100"
TRIAL = "trial seed=0 packets=3 bits=8 robust=1 out=-"
TABLE = "table in=x out=y report=z fields=s bits=16"
FIELDS = b"field,0,8,u,mode\nfield,8,8,s,temp\nlimit,temp,-10,40\n"
TABLED, LIMITS = b"t,mode,temp\n0,1,-16\n1,2,40\n", b"t,name,value,low,high\n0,temp,-16,-10,40\nend,2,1\n"
MULTI = "multi in=x out=y report=z streams=s"
STREAMS = b"100,8\n101,8\n"
TWO_STREAMS = bytes.fromhex("0064C000000385B8D600 0065C005000082 0064C001000082 00650000000082")
STREAMED = bytes.fromhex("0064C0000000B0 0064C0010000B0")
STREAM_HEADER = b"apid,first,last,cause,value\n"
STREAM_ROWS = STREAM_HEADER + b"101,0,4,lost,0\n101,5,5,unsynced,0\n"
STREAM_REPORT = STREAM_ROWS + b"100,end,2,2,0\n101,end,1,0,0\nshape,1\n"
FORECAST = "forecast out=y packets=1000 robust=2 plan=s script=x"
# What is forecast of a thousand packets under data/pass.csv and data/fades.csv.
FORECASTED = (b"first,last,state\n0,9,sure\n10,10,lost\n11,49,sure\n50,51,lost\n52,189,sure\n190,194,lost\n195,199,open\n200,204,sure\n"
              b"205,207,lost\n208,299,open\n300,529,sure\n530,533,lost\n534,599,open\n600,998,sure\n999,999,lost\ngaps,0,6\nend,1000,821\n")
SIX = b"first,last,state\n0,1,sure\n2,3,lost\n4,4,open\n5,5,sure\ngaps,0,3\nend,6,3\n"
SUMMARY = b"packets 3\nrecording 3\nstore 29\nplayed 19\ndelivered 2\nwritten 2\nlisted 1\n"
# What --help prints, to the last byte.
HELP = pathlib.Path(TOP, "tests", "help.txt").read_bytes()
# What is printed of a verb: its lines of the help, its own keys, and its formats.
RESTORE_HELP = b"".join(HELP.splitlines(True)[4:6]) + b"""\
Keys:
    in       a file to read, or - for standard input
    out      a file to write, or - for standard output
    report   a file to write, or - for standard output
    bits     the bits of a packet, 1 to 49152
    apid     the APID, 0 to 2046
Formats:
    STORE    Space Packets, one after the other
    PACKETS  packets of F bits, each in whole bytes with spare bits 0, and nothing between
    REPORT   rows first,last,cause,value, the last one end,arrived,written,repeats
Example:
    pocket restore in=played.store out=packets report=report.csv bits=64 apid=100
"""
# The seed, the packets, the bits of a packet and the required robustness.
TRIALS = [(1, 10000, 1024, 2), (4294967295, 10000, 4096, 7), (7, 1, 1, 0), (3, 500, 13, 0), (20, 2000, 8, 1)]


def wrong(word):
    return b"pocket: word %d is wrong\n" % word


def sample(name):
    """A sample that ships with the program."""
    return pathlib.Path(SAMPLES, name).read_bytes()


def summary(*numbers):
    """What a trial of these numbers prints."""
    return "".join(f"{word} {number}\n" for word, number in trial(*numbers)).encode()


def case(name, words, status=0, out=b"", err=b"", given=b"", before=None, after=None, **how):
    """A command line: the files before it, and what differs after it (None: there is no such file), and what it prints."""
    words = words.split() if isinstance(words, str) else words
    return dict(name=name, words=words, status=status, out=out, err=err, given=given, before=before or {}, after=after or {}, **how)


VERBS = [
    case("compress", COMPRESS, before={"x": RECORDING}, after={"x": RECORDING, "y": STORE, "y.part": None}),
    case("compress with a schedule and a mask", "compress in=x out=y bits=8 apid=100 robust=0 plan=s mask=0f",
         before={"x": bytes.fromhex("A5A6"), "s": b"3,3,1,fr\n"}, after={"y": bytes.fromhex("0064C000000481615C6A500064C001000186C0")}),
    case("compress with a row of required robustness", "compress in=x out=y bits=8 apid=100 robust=0 plan=s",
         before={"x": bytes.fromhex("00010303"), "s": b"robust,2,3,1,2\n"},
         after={"y": bytes.fromhex("0064C000000381B8C0000064C001000142C00064C0020004222C0B8C060064C00300012370")}),
    case("play", PLAY, before={"x": STORE, "s": b"drop,2,2,1\n"}, after={"y": PLAYED, "z": PLAY_REPORT, "y.part": None, "z.part": None}),
    case("restore", RESTORE, before={"x": PLAYED}, after={"y": RESTORED, "z": REPORT, "y.part": None, "z.part": None}),
    case("show", SHOW, before={"x": PLAYED}, after={"x": PLAYED, "y": LISTING, "y.part": None}),
    case("show from a pipe to a pipe", "show in=- out=- bits=8 apid=100", given=PLAYED, out=LISTING),
    case("keys in another order", "compress robust=1 apid=100 bits=8 out=y in=x", before={"x": RECORDING}, after={"y": STORE}),
    case("an empty recording", COMPRESS, before={"x": b""}, after={"y": b""}),
    case("compress from a pipe to a pipe", "compress in=- out=- bits=8 apid=100 robust=1", out=STORE, given=RECORDING),
    case("play to a pipe", "play in=x out=y report=- apid=100 script=-", given=b"drop,2,2,1\n", out=PLAY_REPORT,
         before={"x": STORE}, after={"y": PLAYED}),
    case("restore with the report on a pipe", "restore in=- out=y report=- bits=8 apid=100", given=PLAYED, out=REPORT,
         after={"y": RESTORED}),
    case("trial", TRIAL, out=SUMMARY),
    case("trial to a file", TRIAL[:-1] + "y", after={"y": SUMMARY, "y.part": None}),
    *[case(f"trial {numbers}", "trial seed=%d packets=%d bits=%d robust=%d out=-" % numbers, out=summary(*numbers)) for numbers in TRIALS],
    case("multi", MULTI, before={"x": TWO_STREAMS, "s": STREAMS},
         after={"x": TWO_STREAMS, "y": STREAMED, "z": STREAM_REPORT, "y.part": None, "z.part": None}),
    case("multi from a pipe to a pipe", "multi in=- out=y report=- streams=s", given=TWO_STREAMS, out=STREAM_REPORT,
         before={"s": STREAMS}, after={"y": STREAMED}),
    case("multi with its streams on a pipe", "multi in=x out=- report=z streams=-", given=STREAMS, out=STREAMED,
         before={"x": TWO_STREAMS}, after={"z": STREAM_REPORT}),
    case("multi without a stream", MULTI, before={"x": TWO_STREAMS, "s": b""}, after={"y": b"", "z": STREAM_HEADER + b"shape,0\n"}),
    case("table", TABLE, before={"x": bytes.fromhex("01F00228"), "s": FIELDS},
         after={"x": bytes.fromhex("01F00228"), "y": TABLED, "z": LIMITS, "y.part": None, "z.part": None}),
    case("table from a pipe to a pipe", "table in=- out=y report=- fields=s bits=16", given=bytes.fromhex("01F00228"), out=LIMITS,
         before={"s": FIELDS}, after={"y": TABLED}),
    case("table with its fields on a pipe", "table in=x out=- report=z fields=- bits=16", given=FIELDS, out=TABLED,
         before={"x": bytes.fromhex("01F00228")}, after={"z": LIMITS}),
    case("forecast", FORECAST, before={"s": sample("pass.csv"), "x": sample("fades.csv")}, after={"y": FORECASTED, "y.part": None}),
    case("forecast from a pipe to a pipe", "forecast out=- packets=6 robust=1 plan=s script=-", given=b"drop,2,3,1", out=SIX, before={"s": b"5,5,1,fr"}),
    case("forecast without rows", FORECAST, before={"s": b"", "x": b""}, after={"y": b"first,last,state\n0,999,sure\ngaps,0,1\nend,1000,1000\n"}),
    case("late", "late in=x out=y report=z bits=8 apid=100 window=1", before={"x": SWAPPED},
         after={"y": RECORDING, "z": HEADER + b"end,4,4,0\nlate,0\n", "y.part": None, "z.part": None}),
    case("late beyond the window", "late in=x out=y report=- bits=8 apid=100 window=0", out=HEADER + b"1,1,lost,0\nend,3,3,0\nlate,1\n",
         before={"x": SWAPPED}, after={"y": RESTORED}),
    case("version", "--version", out=b"pocket 1.1.0\n"),
    case("help", "--help", out=HELP),
    case("help in one letter", "-h", out=HELP),
    case("help in a word", "help", out=HELP),
    case("version in one letter", "-V", out=b"pocket 1.1.0\n"),
    case("help of a verb", "restore --help", out=RESTORE_HELP),
    case("help of a verb in one letter", "restore -h", out=RESTORE_HELP),
]

# Words that are wrong, by the index of the first one that is.
WORDS = [
    case("no words", "", 2, err=wrong(0)),
    case("an empty word", [""], 2, err=wrong(0)),
    case("an empty word among the others", ["compress", "in=x", "", "bits=8", "apid=100", "robust=1"], 2, err=wrong(2), before={"x": RECORDING}),
    case("no verb", "shrink", 2, err=wrong(0)),
    case("a verb in capitals", COMPRESS.replace("compress", "Compress"), 2, err=wrong(0), before={"x": RECORDING}),
    case("a verb with a blank", ["compress "] + COMPRESS.split()[1:], 2, err=wrong(0), before={"x": RECORDING}),
    case("a key in capitals", COMPRESS.replace("in=", "IN="), 2, err=wrong(1), before={"x": RECORDING}),
    case("a key with a blank", ["compress", " in=x"] + COMPRESS.split()[2:], 2, err=wrong(1), before={"x": RECORDING}),
    case("no key", "compress =x", 2, err=wrong(1)),
    case("a word without an equals sign", "compress x y", 2, err=wrong(1), before={"x": RECORDING}),
    case("a key is missing", "restore in=x", 2, err=wrong(2)),
    case("a key twice", "restore in=x in=y", 2, err=wrong(2)),
    case("a key of another verb", SHOW + " report=z", 2, err=wrong(5), before={"x": PLAYED}),
    case("a name of no bytes", "compress in= out=y bits=8 apid=100 robust=1", 2, err=wrong(1)),
    case("an output of no bytes", "compress in=x out= bits=8 apid=100 robust=1", 2, err=wrong(2), before={"x": RECORDING}),
    case("a name twice", "restore in=x out=x report=z bits=8 apid=100", 2, err=wrong(2), before={"x": PLAYED}),
    case("a number with a leading zero", "restore in=x out=y report=z bits=08 apid=100", 2, err=wrong(4), before={"x": PLAYED}),
    case("a number with a sign", "restore in=x out=y report=z bits=+8 apid=100", 2, err=wrong(4), before={"x": PLAYED}),
    case("a number with a blank", ["restore", "in=x", "out=y", "report=z", "bits=8 ", "apid=100"], 2, err=wrong(4), before={"x": PLAYED}),
    case("a number of no digits", "restore in=x out=y report=z bits= apid=100", 2, err=wrong(4), before={"x": PLAYED}),
    case("a number that is far too great", "restore in=x out=y report=z bits=18446744073709551624 apid=100", 2, err=wrong(4), before={"x": PLAYED}),
    case("an idle APID", "restore in=x out=y report=z bits=8 apid=2047", 2, err=wrong(5)),
    case("a mask of three digits", "compress in=x out=y bits=13 apid=1 robust=2 mask=123", 2, err=wrong(6)),
    case("a mask with a spare bit", "compress in=x out=y bits=13 apid=1 robust=2 mask=1234", 2, err=wrong(6)),
    case("a mask of three digits among the others", "compress mask=123 in=a out=b bits=13 apid=1 robust=2", 2, err=wrong(1)),
    case("standard output twice", "restore in=- out=- report=- bits=8 apid=100", 2, err=wrong(3)),
    case("standard input twice", "play in=- out=y report=z apid=100 script=-", 2, err=wrong(5)),
    case("more than a thousand words", COMPRESS.split() + ["x"] * 1200, 2, err=wrong(6), before={"x": RECORDING}),
    case("help before a verb", "--help compress", 2, err=wrong(0)),
    case("help after no verb", "compres --help", 2, err=wrong(0)),
    case("help after a verb and a word", "compress in=x --help", 2, err=wrong(2)),
    case("help before a word of a verb", "compress --help in=x", 2, err=wrong(1)),
    case("version after a verb", "compress --version", 2, err=wrong(1)),
    case("help and version", "--help --version", 2, err=wrong(0)),
    case("a word that is no UTF-8", [b"\xff"], 7, err=b"pocket: words cannot be read\n"),
    case("a name that is no UTF-8", [b"compress", b"in=\xff"], 7, err=b"pocket: words cannot be read\n"),
    case("a trial of too many packets", "trial seed=0 packets=10001 bits=8 robust=1 out=-", 2, err=wrong(2)),
    case("a trial of packets of too many bits", "trial seed=0 packets=3 bits=4097 robust=1 out=-", 2, err=wrong(3)),
    case("a trial with an input", TRIAL + " in=x", 2, err=wrong(6), before={"x": RECORDING}),
    case("multi of an APID", MULTI + " apid=100", 2, err=wrong(5), before={"x": b"", "s": STREAMS}),
    case("a table of an APID", TABLE + " apid=100", 2, err=wrong(6), before={"x": b"", "s": FIELDS}),
    case("a forecast of too many packets", "forecast out=- packets=1000001 robust=2 plan=s script=x", 2, err=wrong(2)),
]

# Side texts that are wrong: nothing is begun.
TEXTS = [
    case("a parameter file too long", COMPRESS + " plan=s", 3, err=b"pocket: side input is too long\n", before={"x": RECORDING, "s": b"\n" * 1048577}),
    case("a parameter file of the greatest length", COMPRESS + " plan=s", before={"x": RECORDING, "s": b"\n" * 1048576}, after={"y": STORE}),
    case("a wrong row", COMPRESS + " plan=s", 3, err=b"pocket: side row 2 is wrong\n", before={"x": RECORDING, "s": b"0,9,1,f\n5,9,1,pp\n", "y": b"old"}),
    case("streams with one APID twice", MULTI, 3, err=b"pocket: side row 2 is wrong\n", before={"x": b"", "s": b"100,8\n100,16\n"}),
    case("fields with a wrong row", TABLE, 3, err=b"pocket: side row 1 is wrong\n", before={"x": b"", "s": b"field,9,8,u,x\n"}),
    case("a script that is wrong", FORECAST, 3, err=b"pocket: script row 1 is wrong\n", before={"s": b"", "x": b"drop,0,3"}),
    case("a script too long", FORECAST, 3, err=b"pocket: script is too long\n", before={"s": b"", "x": b"\n" * 1048577}),
    case("a schedule that is wrong and no script", FORECAST, 3, err=b"pocket: side row 1 is wrong\n", before={"s": b"0,3,1"}),
    case("a forecast without a script", FORECAST, 1, err=READ, before={"s": b""}),
    case("a trial to a device that is full", TRIAL[:-1] + "/dev/full", 1, err=WRITE),
    case("a forecast to a device that is full", "forecast out=/dev/full packets=6 robust=1 plan=s script=x", 1, err=WRITE, before={"s": b"", "x": b""}),
]

# Recordings and stores that are wrong, and what stands in the parts then.
DATA = [
    case("a recording that is cut", "compress in=x out=y bits=13 apid=100 robust=0", 4, err=b"pocket: recording ends inside packet 1\n",
         before={"x": bytes.fromhex("123812")}, after={"y.part": bytes.fromhex("0064C000000381B96247")}),
    case("a spare bit", "compress in=x out=y bits=13 apid=100 robust=0", 4, err=b"pocket: packet 0 has a spare bit set\n",
         before={"x": bytes.fromhex("1234")}, after={"y.part": b""}),
    case("a store that is cut", RESTORE, 4, err=b"pocket: store packet at byte 10 is cut\n",
         before={"x": FIRST + bytes.fromhex("0064C0")}, after={"y.part": b"\xb0", "z.part": HEADER}),
    case("the listing of a store that is cut", SHOW, 4, err=b"pocket: store packet at byte 10 is cut\n",
         before={"x": FIRST + bytes.fromhex("0064C0")}, after={"y.part": b"0 written 1 00 00 b0\n"}),
    case("play of a store that is cut", PLAY, 4, err=b"pocket: store packet at byte 28 is cut\n",
         before={"x": FIRST + SECOND + THIRD + FOURTH[:-1], "s": b"drop,2,2,1\n", "y": b"old", "z": b"old"}, after={"y.part": FIRST + SECOND, "z.part": b""}),
    case("late of a store that is cut", LATE, 4, err=b"pocket: store packet at byte 28 is cut\n",
         before={"x": FIRST + SECOND + THIRD + FOURTH[:-1]}, after={"y.part": bytes.fromhex("B0B1"), "z.part": HEADER}),
    case("multi of a store that is cut", MULTI, 4, err=b"pocket: store packet at byte 24 is cut\n",
         before={"x": TWO_STREAMS[:-1], "s": STREAMS}, after={"y.part": STREAMED, "z.part": STREAM_ROWS}),
    case("a table of a recording that is cut", TABLE, 4, err=b"pocket: recording ends inside packet 1\n", before={"x": bytes.fromhex("01F002"), "s": FIELDS},
         after={"y.part": b"t,mode,temp\n0,1,-16\n", "z.part": b"t,name,value,low,high\n0,temp,-16,-10,40\n"}),
    case("another version", RESTORE, 4, err=b"pocket: store packet at byte 0 has another version\n", before={"x": bytes.fromhex("2064C000000000")},
         after={"y.part": b"", "z.part": HEADER}),
    case("another shape", PLAY, 4, err=b"pocket: store packet at byte 0 has another shape\n", before={"x": bytes.fromhex("00640000000082"), "s": b""},
         after={"y.part": b"", "z.part": b""}),
    case("restore of another APID", RESTORE.replace("100", "101"), before={"x": STORE}, after={"y": b"", "z": HEADER + b"end,0,0,0\n"}),
    case("show of another APID", SHOW.replace("100", "101"), before={"x": STORE}, after={"y": b"end 0 0 0\n"}),
    case("late of another APID", LATE.replace("100", "101"), before={"x": STORE}, after={"y": b"", "z": HEADER + b"end,0,0,0\nlate,0\n"}),
    case("play of another APID", PLAY.replace("100", "101"), before={"x": STORE, "s": b"drop,2,2,1\n"},
         after={"y": STORE, "z": b"packets,delivered,dropped,repeats,first,widest\n0,0,0,0,-,0\n"}),
    case("multi of another APID", MULTI, before={"x": STORE, "s": b"101,8\n"}, after={"y": b"", "z": STREAM_HEADER + b"101,end,0,0,0\nshape,0\n"}),
    case("restore with another number of bits", RESTORE.replace("bits=8", "bits=16"), before={"x": STORE},
         after={"y": b"", "z": HEADER + b"0,0,wrong,15\n1,1,wrong,19\n2,2,unsynced,0\n3,3,unsynced,0\nend,4,0,0\n"}),
    case("show with another number of bits", SHOW.replace("bits=8", "bits=16"), before={"x": STORE},
         after={"y": b"0 wrong 15\n1 wrong 19\n2 unsynced\n3 unsynced\nend 4 0 0\n"}),
]
