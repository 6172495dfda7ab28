"""The command lines over files, links, pipes, devices and closed folders: what becomes of each name and of each part. What must
stand there is worked out by hand, from docs/FORMATS.md."""

from program import ProgramTest
from rows import (COMPRESS, FIELDS, FIRST, HEADER, LATE, MULTI, PLAY, PLAYED, READ, RECORDING, REPORT, RESTORE, RESTORED, STORE, STREAMED, STREAMS,
                  TABLE, TABLED, TWO_STREAMS, WRITE, case)

OLD = b"yesterday, which was longer than what comes today: " + b"old " * 20
# A recording whose packet 1 is cut, the refusal of it with packets of 13 bits, and what stands in the part then.
CUT, CUT_TEXT, CUT_PART = bytes.fromhex("123812"), b"pocket: recording ends inside packet 1\n", bytes.fromhex("0064C000000381B96247")
CUT_STORE, CUT_STORE_TEXT = FIRST + b"\x00", b"pocket: store packet at byte 10 is cut\n"


def compress(out, inlet="x", bits=8, robust=1):
    return f"compress in={inlet} out={out} bits={bits} apid=100 robust={robust}"


def restore(out="y", report="z", inlet="x"):
    return f"restore in={inlet} out={out} report={report} bits=8 apid=100"


def refused(out):
    """A compression whose recording is cut."""
    return compress(out, bits=13, robust=0)


# What stands under the name of a part, and is replaced, or is left as it is.
PARTS = [
    case("an earlier part", compress("y"), before={"x": RECORDING, "y.part": b"earlier"}, after={"y": STORE, "y.part": None}),
    case("an earlier part that is longer", compress("y"), before={"x": RECORDING, "y.part": OLD}, after={"y": STORE, "y.part": None}),
    case("an earlier part that can't be written", compress("y"), before={"x": RECORDING, "y.part": ("closed", OLD)}, after={"y": STORE, "y.part": None}),
    case("an earlier part before a refusal", refused("y"), 4, err=CUT_TEXT, before={"x": CUT, "y.part": OLD}, after={"y.part": CUT_PART}),
    case("an earlier part of the report", RESTORE, before={"x": PLAYED, "z.part": OLD}, after={"y": RESTORED, "z": REPORT, "z.part": None}),
    case("the part is a hard link to a kept file", compress("y"), before={"x": RECORDING, "k": OLD, "y.part": ("hard", "k")},
         after={"k": OLD, "y": STORE, "y.part": None}),
    case("the part is a hard link to a kept file, before a refusal", refused("y"), 4, err=CUT_TEXT,
         before={"x": CUT, "k": OLD, "y.part": ("hard", "k")}, after={"k": OLD, "y.part": CUT_PART}),
    case("the part of the report is a hard link to a kept file", RESTORE, before={"x": PLAYED, "k": OLD, "z.part": ("hard", "k")},
         after={"k": OLD, "y": RESTORED, "z": REPORT, "z.part": None}),
    case("the part is a link", compress("y"), 1, err=WRITE, before={"x": RECORDING, "o": OLD, "y.part": ("link", "o")}),
    case("the part is a link to nothing", compress("y"), 1, err=WRITE, before={"x": RECORDING, "y.part": ("link", "nothing")}),
    case("the part is a link to the output", compress("y"), 1, err=WRITE, before={"x": RECORDING, "y": OLD, "y.part": ("link", "y")}),
    case("the part is a folder", compress("y"), 1, err=WRITE, before={"x": RECORDING, "y.part": "folder"}),
    case("the part is a pipe", compress("y"), 1, err=WRITE, before={"x": RECORDING, "y.part": "pipe"}),
    case("the part is a socket", compress("y"), 1, err=WRITE, before={"x": RECORDING, "y.part": "socket"}),
    case("the part of the report is a pipe", RESTORE, 1, err=WRITE, before={"x": PLAYED, "z.part": "pipe"}),
    case("the part is another user's, and can't be replaced", compress("f/y"), 1, err=WRITE, as_root=True,
         before={"x": RECORDING, "f": "sticky folder", "f/y.part": ("another's", OLD)}),
]

# The part that an output wants is an input, or the other output.
TAKEN_PARTS = [
    case("the part is the input", compress("y", "y.part"), 1, err=WRITE, before={"y.part": RECORDING, "y": OLD}),
    case("the part is a hard link to the input", compress("y"), 1, err=WRITE, before={"x": RECORDING, "y.part": ("hard", "x"), "y": OLD}),
    case("the input is a link to the part", compress("y"), 1, err=WRITE, before={"y.part": RECORDING, "x": ("link", "y.part"), "y": OLD}),
    case("the part is the schedule", compress("y") + " plan=y.part", 1, err=WRITE, before={"x": RECORDING, "y.part": b"3,3,1,fr\n"}),
    case("the part is the script", "play in=x out=y report=z apid=100 script=y.part", 1, err=WRITE, before={"x": STORE, "y.part": b"drop,2,2,1\n"}),
    case("the part is the script of a forecast", "forecast out=y packets=6 robust=1 plan=s script=y.part", 1, err=WRITE,
         before={"s": b"5,5,1,fr\n", "y.part": b"drop,2,3,1\n"}),
    case("the part is the schedule of a forecast", "forecast out=y packets=6 robust=1 plan=y.part script=x", 1, err=WRITE,
         before={"y.part": b"5,5,1,fr\n", "x": b"drop,2,3,1\n"}),
    case("the part is the text of the streams", MULTI.replace("=s", "=y.part"), 1, err=WRITE, before={"x": TWO_STREAMS, "y.part": STREAMS}),
    case("the part is standard input", compress("y", "-"), 1, err=WRITE, stdin="y.part", before={"y.part": RECORDING}),
    case("the part is standard input with the schedule", compress("y") + " plan=-", 1, err=WRITE, stdin="y.part",
         before={"x": RECORDING, "y.part": b"3,3,1,fr\n"}),
    case("the part is standard input with the script", PLAY.replace("=s", "=-"), 1, err=WRITE, stdin="y.part",
         before={"x": STORE, "y.part": b"drop,2,2,1\n"}),
    case("the part of the report is the input", restore(inlet="z.part"), 1, err=WRITE, before={"z.part": PLAYED}),
    case("the part of the report is the script", PLAY.replace("=s", "=z.part"), 1, err=WRITE, before={"x": STORE, "z.part": b"drop,2,2,1\n"}),
    case("the part of the report is standard input", restore(inlet="-"), 1, err=WRITE, stdin="z.part", before={"z.part": PLAYED}),
    case("the part of the report is standard input with the script", PLAY.replace("=s", "=-"), 1, err=WRITE, stdin="z.part",
         before={"x": STORE, "z.part": b"drop,2,2,1\n"}),
    case("the report is the output, spelled otherwise", restore(report="./y"), 1, err=WRITE, before={"x": PLAYED, "y": OLD}),
    case("the report is the output, spelled otherwise, and not there", restore(report="./y"), 1, err=WRITE, before={"x": PLAYED}),
    case("the report is the part of the output", restore(report="y.part"), 1, err=WRITE, before={"x": PLAYED, "y": OLD}),
    case("the report is a link to the output", restore(report="l"), 1, err=WRITE, before={"x": PLAYED, "y": OLD, "l": ("link", "y")}),
    case("the output is a link to the report", restore("l", "y"), 1, err=WRITE, before={"x": PLAYED, "y": OLD, "l": ("link", "y")}),
    case("the report is a link to the output, which is not there", restore(report="l"), 1, err=WRITE, before={"x": PLAYED, "l": ("link", "y")}),
    case("the report is a hard link to the output", restore(report="h"), before={"x": PLAYED, "y": OLD, "h": ("hard", "y")}, after={"y": RESTORED, "h": REPORT}),
    case("the part of the report is standard output", restore("-", "y"), 1, err=WRITE, stdout="y.part", before={"x": PLAYED, "y.part": b""}),
    case("the part is standard output with the report", restore("y", "-"), 1, err=WRITE, stdout="y.part", before={"x": PLAYED, "y.part": b""}),
    case("the report is standard output, spelled otherwise", restore("-", "y"), 1, err=WRITE, stdout="y", before={"x": PLAYED, "y": OLD}),
    case("the output is standard output with the report", restore("y", "-"), 1, err=WRITE, stdout="y", before={"x": PLAYED, "y": OLD}),
    case("both outputs are standard output", restore("/dev/stdout", "-"), 1, err=WRITE, before={"x": PLAYED}),
    case("both outputs are standard output, the report spelled otherwise", restore("-", "/dev/fd/1"), 1, err=WRITE, before={"x": PLAYED}),
    case("both outputs are standard output, which is a file", restore("/proc/self/fd/1", "-"), 1, err=WRITE, stdout="k", before={"x": PLAYED, "k": OLD}),
    case("standard output is the device of both", restore("-", "/dev/null"), stdout="/dev/null", before={"x": PLAYED}),
    case("the output is the part of the report, which stands", restore("z.part", "z"), 1, err=WRITE, before={"x": PLAYED, "z.part": OLD}),
    case("the output is the part of the report, and is not there", restore("z.part", "./z"), 1, err=WRITE, before={"x": PLAYED}),
]

# What stood under the names of the outputs, and its mode.
STANDING = [
    case("a second run over one name", COMPRESS, before={"x": RECORDING, "y": OLD}, after={"y": STORE}),
    case("a refused run over outputs that stood", RESTORE, 4, err=CUT_STORE_TEXT, before={"x": CUT_STORE, "y": OLD, "z": OLD},
         after={"y.part": b"\xb0", "z.part": HEADER}),
    case("the modes of standing outputs", RESTORE, before={"x": PLAYED, "y": ("mode", 0o640, OLD), "z": ("mode", 0o600, OLD)},
         after={"y": RESTORED, "z": REPORT}, modes={"y": 0o640, "z": 0o600}),
    case("modes that let all write and run", RESTORE, before={"x": PLAYED, "y": ("mode", 0o777, OLD), "z": ("mode", 0o666, OLD)},
         after={"y": RESTORED, "z": REPORT}, modes={"y": 0o777, "z": 0o666}),
    case("the modes of the parts", RESTORE, 4, err=CUT_STORE_TEXT, before={"x": CUT_STORE, "y": ("mode", 0o600, OLD), "z": ("mode", 0o660, OLD)},
         after={"y.part": b"\xb0", "z.part": HEADER}, modes={"y.part": 0o600, "z.part": 0o660}),
    case("an output that can't be read", COMPRESS, before={"x": RECORDING, "y": ("mode", 0o222, OLD)}, after={"y": STORE}, modes={"y": 0o222}),
    case("an output that can't be written", COMPRESS, 1, err=WRITE, before={"x": RECORDING, "y": ("closed", OLD)}),
    case("a report that can't be written", RESTORE, 1, err=WRITE, before={"x": PLAYED, "y": OLD, "z": ("closed", OLD)}),
    case("an output with a second name", COMPRESS, before={"x": RECORDING, "k": OLD, "y": ("hard", "k")}, after={"y": STORE, "k": OLD}),
    case("an output that can't be renamed over another user's", compress("f/y"), 1, err=WRITE, as_root=True,
         before={"x": RECORDING, "f": "sticky folder", "f/y": ("another's", OLD)}, after={"f/y.part": STORE}),
    case("an output that can't be renamed, before the report", restore("f/y"), 1, err=WRITE, as_root=True,
         before={"x": PLAYED, "f": "sticky folder", "f/y": ("another's", OLD), "z": OLD}, after={"f/y.part": RESTORED, "z.part": REPORT}),
    case("a report that can't be renamed", restore(report="f/z"), 1, err=WRITE, as_root=True,
         before={"x": PLAYED, "y": OLD, "f": "sticky folder", "f/z": ("another's", OLD)}, after={"y": RESTORED, "f/z.part": REPORT}),
    case("a folder as the output", compress("f"), 1, err=WRITE, before={"x": RECORDING, "f": "folder"}),
    case("a folder as the report", restore(report="f"), 1, err=WRITE, before={"x": PLAYED, "y": OLD, "f": "folder"}),
    case("in a folder that can't be written", compress("f/y"), 1, err=WRITE, before={"x": RECORDING, "f": "closed folder"}),
    case("an output that standard output leads to as well", restore(report="z"), stdout="z", before={"x": PLAYED, "z": OLD}, after={"y": RESTORED, "z": REPORT}),
]

# The name of an output is that of a file which the command reads: it is refused before anything is written.
READ_OVER = [
    case("the input as output, spelled otherwise", compress("./x"), 1, err=WRITE, before={"x": RECORDING}),
    case("the input as output, spelled otherwise, over an earlier part", compress("./x"), 1, err=WRITE, before={"x": RECORDING, "x.part": OLD}),
    case("a hard link to the input as output", compress("h"), 1, err=WRITE, before={"x": RECORDING, "h": ("hard", "x")}),
    case("a link to the input as output", compress("l"), 1, err=WRITE, before={"x": RECORDING, "l": ("link", "x")}),
    case("the input is a link to the output", compress("y"), 1, err=WRITE, before={"y": RECORDING, "x": ("link", "y")}),
    case("a cut recording as output", refused("./x"), 1, err=WRITE, before={"x": CUT}),
    case("the report over the input", restore(report="./x"), 1, err=WRITE, before={"x": PLAYED}),
    case("the schedule as output", compress("./s") + " plan=s", 1, err=WRITE, before={"x": RECORDING, "s": b"3,3,1,fr\n"}),
    case("the script as output", "play in=x out=./s report=z apid=100 script=s", 1, err=WRITE, before={"x": STORE, "s": b"drop,2,2,1\n"}),
    case("the script as report", "play in=x out=y report=./s apid=100 script=s", 1, err=WRITE, before={"x": STORE, "s": b"drop,2,2,1\n"}),
    case("the schedule of a forecast as output", "forecast out=./s packets=6 robust=1 plan=s script=x", 1, err=WRITE, before={"s": b"5,5,1,fr\n", "x": b"drop,2,3,1\n"}),
    case("the script of a forecast as output", "forecast out=./x packets=6 robust=1 plan=s script=x", 1, err=WRITE, before={"s": b"5,5,1,fr\n", "x": b"drop,2,3,1\n"}),
    case("the streams as output", MULTI.replace("=y", "=./s"), 1, err=WRITE, before={"x": TWO_STREAMS, "s": STREAMS}),
    case("the fields as output of a table", TABLE.replace("=y", "=./s"), 1, err=WRITE, before={"x": b"", "s": b"field,0,8,u,a\n"}),
    case("standard input as output", compress("x", "-"), 1, err=WRITE, stdin="x", before={"x": RECORDING}),
    case("standard input as report", restore(report="x", inlet="-"), 1, err=WRITE, stdin="x", before={"x": PLAYED}),
    case("standard input with the script as output", "play in=x out=s report=z apid=100 script=-", 1, err=WRITE, stdin="s", before={"x": STORE, "s": b"drop,2,2,1\n"}),
]

# Names, and the folders in which the parts stand.
LONGEST, TOO_LONG = "n" * 250, "n" * 251
NAMES = [
    case("in a subfolder", compress("f/y"), before={"x": RECORDING, "f": "folder"}, after={"f/y": STORE}),
    case("refused in a subfolder", refused("f/y"), 4, err=CUT_TEXT, before={"x": CUT, "f": "folder", "f/y": OLD}, after={"f/y.part": CUT_PART}),
    case("one name in two folders", restore("f/y", "y"), before={"x": PLAYED, "f": "folder"}, after={"f/y": RESTORED, "y": REPORT}),
    case("in a folder that is missing", compress("f/y"), 1, err=WRITE, before={"x": RECORDING}),
    case("from a folder that is missing", compress("y", "f/x"), 1, err=READ, before={"x": RECORDING, "y": OLD}),
    case("below a file", compress("y/y"), 1, err=WRITE, before={"x": RECORDING, "y": OLD}),
    case("a name of 250 bytes", compress(LONGEST), before={"x": RECORDING}, after={LONGEST: STORE}),
    case("a name of 250 bytes in 125 letters", compress("é" * 125), before={"x": RECORDING}, after={"é" * 125: STORE}),
    case("a name of 251 bytes", compress(TOO_LONG), 1, err=WRITE, before={"x": RECORDING}),
    case("a name of 251 bytes that stands", compress(TOO_LONG), 1, err=WRITE, before={"x": RECORDING, TOO_LONG: OLD}),
    case("a name of 255 bytes to read", compress("y", "n" * 255), before={"n" * 255: RECORDING}, after={"y": STORE}),
    case("a report with a name of 251 bytes", restore(report=TOO_LONG), 1, err=WRITE, before={"x": PLAYED}),
    case("names with blanks at the end", ["compress", "in=x ", "out=y ", "bits=8", "apid=100", "robust=1"], before={"x ": RECORDING, "x": OLD, "y": OLD},
         after={"y ": STORE}),
    case("names with blanks at the front", ["compress", "in= x", "out= y", "bits=8", "apid=100", "robust=1"], before={" x": RECORDING, "x": OLD, "y": OLD},
         after={" y": STORE}),
    case("names with capitals", compress("Y", "X"), before={"X": RECORDING, "x": OLD, "y": OLD}, after={"Y": STORE}),
    case("names that begin with a dash", compress("-y", "-x"), before={"-x": RECORDING}, after={"-y": STORE}),
    case("files whose name is a dash", compress("./-", "./x"), before={"x": RECORDING}, after={"-": STORE}),
    case("a file to read whose name is a dash", compress("y", "./-"), before={"-": RECORDING}, after={"y": STORE}),
    case("names with an equals sign", compress("y=z", "x=y"), before={"x=y": RECORDING}, after={"y=z": STORE}),
    case("a name that ends as a part", compress("y.part"), before={"x": RECORDING, "y": OLD}, after={"y.part": STORE}),
]

# Links stay links: the part stands beside the file to which they lead.
LINKS = [
    case("a link into a subfolder", compress("l"), before={"x": RECORDING, "f": "folder", "f/y": OLD, "l": ("link", "f/y")}, after={"f/y": STORE}),
    case("a link into a subfolder, and a mode", compress("l"), before={"x": RECORDING, "f": "folder", "f/y": ("mode", 0o606, OLD), "l": ("link", "f/y")},
         after={"f/y": STORE}, modes={"f/y": 0o606}),
    case("a link into a subfolder, refused", refused("l"), 4, err=CUT_TEXT, before={"x": CUT, "f": "folder", "f/y": OLD, "l": ("link", "f/y")},
         after={"f/y.part": CUT_PART}),
    case("a link out of a subfolder", compress("f/l"), before={"x": RECORDING, "f": "folder", "f/l": ("link", "../y"), "y": OLD}, after={"y": STORE}),
    case("a report by a link into a subfolder", restore(report="l"), before={"x": PLAYED, "f": "folder", "f/z": OLD, "l": ("link", "f/z")},
         after={"y": RESTORED, "f/z": REPORT}),
    case("a folder by a link", compress("l/y"), before={"x": RECORDING, "f": "folder", "f/y": OLD, "l": ("link", "f")}, after={"f/y": STORE}),
    case("a chain of links", compress("l"), after={"f/y": STORE},
         before={"x": RECORDING, "f": "folder", "f/y": OLD, "f/m": ("link", "y"), "l": ("link", "f/m")}),
    case("a chain of links, refused", refused("l"), 4, err=CUT_TEXT, after={"f/y.part": CUT_PART},
         before={"x": CUT, "f": "folder", "f/y": OLD, "f/m": ("link", "y"), "l": ("link", "f/m")}),
    case("a link into a folder that can't be written", compress("l"), 1, err=WRITE, as_root=True,
         before={"x": RECORDING, "f": "closed folder", "f/y": OLD, "l": ("link", "f/y")}),
    case("a link to nothing", compress("l"), 1, err=WRITE, before={"x": RECORDING, "l": ("link", "nothing")}),
    case("a chain of links to nothing", compress("l"), 1, err=WRITE, before={"x": RECORDING, "m": ("link", "nothing"), "l": ("link", "m")}),
    case("a link to itself", compress("l"), 1, err=WRITE, before={"x": RECORDING, "l": ("link", "l")}),
    case("a link to a folder", compress("l"), 1, err=WRITE, before={"x": RECORDING, "f": "folder", "l": ("link", "f")}),
    case("a link to a device", compress("l"), before={"x": RECORDING, "l": ("link", "/dev/null")}),
    case("a link to a device that is full", compress("l"), 1, err=WRITE, before={"x": RECORDING, "l": ("link", "/dev/full")}),
    case("a link to a pipe", compress("l"), before={"x": RECORDING, "p": "pipe", "l": ("link", "p")}, pipe=("p", STORE)),
    case("inputs by links", compress("y", "l") + " plan=m", before={"x": RECORDING, "s": b"", "l": ("link", "x"), "m": ("link", "s")}, after={"y": STORE}),
]

# Devices, pipes and the standard streams.
DEVICES = [
    case("a device", compress("/dev/null"), before={"x": RECORDING}),
    case("a device that is full", compress("/dev/full"), 1, err=WRITE, before={"x": RECORDING}),
    case("a device to read", compress("y", "/dev/null"), after={"y": b""}),
    case("a pipe", compress("p"), before={"x": RECORDING, "p": "pipe"}, pipe=("p", STORE)),
    case("a socket", compress("p"), 1, err=WRITE, before={"x": RECORDING, "p": "socket"}),
    case("a report to a device", restore(report="/dev/null"), before={"x": PLAYED}, after={"y": RESTORED}),
    case("a report to a pipe", restore(report="p"), before={"x": PLAYED, "p": "pipe"}, after={"y": RESTORED}, pipe=("p", REPORT)),
    case("a report to a pipe beside a part", restore(report="p"), 4, err=CUT_STORE_TEXT, before={"x": CUT_STORE, "y": OLD, "p": "pipe"},
         after={"y.part": b"\xb0"}, pipe=("p", HEADER)),
    case("a cut store to a device that is full", restore("/dev/full"), 4, err=CUT_STORE_TEXT, before={"x": CUT_STORE}, after={"z.part": HEADER}),
    case("a cut store with its report to a device that is full", restore(report="/dev/full"), 4, err=CUT_STORE_TEXT, before={"x": CUT_STORE},
         after={"y.part": b"\xb0"}),
    case("a cut recording to a device that is full", refused("/dev/full"), 4, err=CUT_TEXT, before={"x": CUT}),
    case("a cut recording to standard output", refused("-"), 4, out=CUT_PART, err=CUT_TEXT, before={"x": CUT}),
    *[case(f"standard output as {name}", compress(name), out=STORE, before={"x": RECORDING}) for name in ("/dev/stdout", "/dev/fd/1", "/proc/self/fd/1")],
    *[case(f"standard output as {name}, which is a file", compress(name), stdout="o", before={"x": RECORDING, "o": b"head"}, after={"o": b"head" + STORE})
      for name in ("-", "/dev/stdout", "/dev/fd/1", "/proc/self/fd/1")],
    case("a report to standard output, which is a file", restore(report="/dev/stdout"), stdout="o", before={"x": PLAYED, "o": b"head"},
         after={"y": RESTORED, "o": b"head" + REPORT}),
    case("standard output is closed", compress("/dev/stdout"), 1, err=WRITE, closed="stdout", before={"x": RECORDING}),
    case("standard error is closed", refused("y"), 4, closed="stderr", before={"x": CUT}, after={"y.part": CUT_PART}),
    case("standard output to a reader that has gone", compress("-"), 1, err=WRITE, stdout="unread pipe", before={"x": RECORDING}),
    case("a cut store to a reader that has gone", restore("-"), 4, err=CUT_STORE_TEXT, stdout="unread pipe", before={"x": CUT_STORE}, after={"z.part": HEADER}),
    case("version on a device that is full", "--version", 1, err=WRITE, stdout="/dev/full"),
    case("help on a device that is full", "--help", 1, err=WRITE, stdout="/dev/full"),
    case("version to a reader that has gone", "--version", 1, err=WRITE, stdout="unread pipe"),
    case("help to a reader that has gone", "--help", 1, err=WRITE, stdout="unread pipe"),
]

# The verbs with two outputs: the words, the files before them, and the output.
TWO_OUTPUTS = [
    ("play", PLAY, {"x": STORE, "s": b"drop,2,2,1\n"}, PLAYED),
    ("restore", RESTORE, {"x": PLAYED}, RESTORED),
    ("multi", MULTI, {"x": TWO_STREAMS, "s": STREAMS}, STREAMED),
    ("late", LATE, {"x": STORE}, RECORDING),
    ("table", TABLE, {"x": bytes.fromhex("01F00228"), "s": FIELDS}, TABLED),
]


def unreported(verb, words, before, output):
    """Command lines whose report can't be written, or would replace an input: the output keeps what it had under its name."""
    def with_report(report):
        return words.replace("report=z", f"report={report}")
    unwritten = dict(status=1, err=WRITE, before={**before, "y": OLD}, after={"y.part": output})
    unopened = dict(status=1, err=WRITE, before={**before, "y": OLD, "y.part": b"earlier"})
    return [
        case(f"{verb} with its report to a device that is full", with_report("/dev/full"), **unwritten),
        case(f"{verb} with its report to standard output, which is full", with_report("-"), stdout="/dev/full", **unwritten),
        case(f"{verb} with its report to standard output, which is closed", with_report("-"), closed="stdout", **unwritten),
        case(f"{verb} with its report to a reader that has gone", with_report("-"), stdout="unread pipe", **unwritten),
        case(f"{verb} with its report over the input, and an earlier part", with_report("./x"), **unopened),
        case(f"{verb} with its report in a folder that is missing, and an earlier part", with_report("f/z"), **unopened),
    ]


UNREPORTED = [row for given in TWO_OUTPUTS for row in unreported(*given)]

# Inputs that can't be read.
UNREAD = [
    case("no such input", COMPRESS, 1, err=READ, before={"y": OLD}),
    case("an input that can't be read", COMPRESS, 1, err=READ, before={"x": ("mode", 0o000, RECORDING), "y": OLD}),
    case("the input is a folder", compress("y", "."), 1, err=READ, before={"y": OLD}, after={"y.part": b""}),
    case("the input is a link to nothing", COMPRESS, 1, err=READ, before={"x": ("link", "nothing")}),
    case("standard input is closed", compress("y", "-"), 1, err=READ, closed="stdin", before={"y": OLD}, after={"y.part": b""}),
    case("standard input is closed, and there is a schedule", compress("y", "-") + " plan=s", 1, err=READ, closed="stdin",
         before={"y": OLD, "s": b"3,3,1,fr\n"}, after={"y.part": b""}),
    case("no such script", PLAY, 1, err=READ, before={"x": STORE, "y": OLD}),
    case("a schedule that can't be read", COMPRESS + " plan=s", 1, err=READ, before={"x": RECORDING, "s": ("mode", 0o000, b"")}),
    case("a schedule that is a folder", COMPRESS + " plan=s", 1, err=READ, before={"x": RECORDING, "s": "folder"}),
    case("a script that is a folder", PLAY, 1, err=READ, before={"x": STORE, "s": "folder"}),
    case("fields that are a folder", TABLE, 1, err=READ, before={"x": b"", "s": "folder"}),
    case("streams that are a folder", MULTI, 1, err=READ, before={"x": b"", "s": "folder"}),
    case("a script of a forecast that is a folder", "forecast out=y packets=6 robust=1 plan=s script=x", 1, err=READ, before={"s": b"", "x": "folder"}),
]

FILES = PARTS + TAKEN_PARTS + STANDING + READ_OVER + NAMES + LINKS + DEVICES + UNREPORTED + UNREAD


class Files(ProgramTest):
    def test_files(self):
        self.each(FILES)
