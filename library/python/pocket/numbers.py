HELP = """python3 -m pocket numbers table=T report=R [fields=F bits=N] [as=csv|influx|events] [..]: a table with each packet's number and time.

    python3 -m pocket numbers table=day.table report=day.report start=2026-11-30T06:00:00Z step=1 out=day.csv
    python3 -m pocket numbers table=day.table report=day.report fields=day.fields bits=64 as=events time=clock epoch=2000-01-01T00:00:00Z unit=0.001

`table` is what the command `table` wrote of restored packets, and `report` what `restore` or `late` wrote beside these, or `multi` with
`apid=N`, of which the table has that APID's packets alone: from it comes each packet's number, which is that at the sender. A packet's time
is `start` and `step` seconds for each number, or the value of a field, `time=NAME`, in units of `unit` seconds since `epoch`. Seconds have up
to nine places behind the point, and leap seconds are not counted. After a restart on board numbers tell no time, so it is told if the
report has a loss that may be one: 16 packets or more. `time=` is right then too, if the field's clock went on.

`as=csv` writes a line for each packet: number, time if it is known, and the fields. `as=influx` writes the line protocol of Influx 1 and 2,
with times in nanoseconds, which must be known and differ, under the `measurement` named (pocket if it is not), with each `tag=KEY:VALUE`
and the APID if it was said as tags. `as=events` writes a line for each stretch of packets at which a field is out of its limits: the limit
that it passed, the first packet out and the first one within again, how many are out, and the worst value with its packet. Influx and
events take `fields`, the parameter file of the table, and `bits`. What this command decides is tested, not proved.
"""

import datetime
import decimal
import itertools
import re
from typing import Dict, Iterator, List, NamedTuple, Optional, Sequence, Tuple

from .fields import Fields, fields_of
from .calls import MOST_BITS
from .packets import IDLE
from .tool import ToolError, contents, given, number_of, outputs, whole_number

KEYS = ("table", "report", "fields", "bits", "as", "apid", "start", "step", "time", "epoch", "unit", "measurement", "out")
BILLION = 10**9
REPORT = "first,last,cause,value"
MOST = 2**32
# The most nanoseconds before 1970 or after it that Influx takes.
MOST_INFLUX = 2**63 - 2
# So many lost packets or more may be a restart on board, which leaves out so many counts.
RESTART = 16


class Line(NamedTuple):
    """A packet of the table: its number, its time in nanoseconds since 1970 if it is known, and the values of its fields."""

    number: int
    time: Optional[int]
    values: List[int]


Rows = List[Tuple[int, List[str]]]


def rows_of(name: str, apid: Optional[int]) -> Rows:
    """The rows of a report after its first line, each with its line, of one APID if it has several streams."""
    lines = contents(name).decode("ascii", "replace").splitlines()
    first = "apid," + REPORT if apid is not None else REPORT
    if not lines or lines[0] != first:
        raise ToolError(f"{name}: line 1 is not {first}" + ("" if apid is not None else ": say apid=N of a report of several streams"))
    rows = [(place, line.split(",")) for place, line in enumerate(lines[1:], 2)]
    return [(place, row[1:] or [""]) for place, row in rows if row[0] == str(apid)] if apid is not None else rows


def written(name: str, rows: Rows) -> Iterator[range]:
    """The numbers of the packets that were restored, in order, by stretches: those up to the last arrival that no row names."""
    expected = named = 0
    for place, row in rows:
        if row[0] == "end" and len(row) == 4:
            count = whole_number(row[2], 0, MOST)
            if count is None:
                break
            yield range(expected, named + count)
            return
        first, last = (whole_number(text, 0, 2**64) for text in (row + ["", ""])[:2])
        if len(row) != 4 or first is None or last is None or not expected <= first <= last:
            raise ToolError(f"{name}: line {place} is no row of a report: {','.join(row)}")
        yield range(expected, first)
        expected, named = last + 1, named + last + 1 - first
    raise ToolError(f"{name} has no row end: the store was not read to its end")


def restarts(name: str, rows: Rows) -> str:
    """That losses may be restarts of the sender, if there are such among the rows, whose numbers were looked at."""
    told = itertools.takewhile(lambda row: row[0] != "end", (row for _, row in rows))
    found = [(int(row[0]), int(row[1])) for row in told if row[2] == "lost" and int(row[1]) - int(row[0]) + 1 >= RESTART and row[0] != "0"]
    if not found:
        return ""
    first, last = found[0]
    more = f", the first of {len(found)} such losses" if len(found) > 1 else ""
    return (f"{name}: the packets {first} to {last} are lost{more}: if the board restarted there, times by start= and step= are wrong from {last + 1} on; "
            "time= takes them from a field")


def table_of(name: str) -> Tuple[List[str], List[List[int]]]:
    """The names of the fields of a table, and their values packet by packet."""
    lines = contents(name).decode("ascii", "replace").splitlines()
    names = lines[0].split(",") if lines else []
    if names[:1] != ["t"]:
        raise ToolError(f"{name}: line 1 is not that of a table: t and the names of fields")
    found = []
    for place, line in enumerate(lines[1:]):
        values = [whole_number(text, -(2**63), 2**64 - 1) for text in line.split(",")]
        if len(values) != len(names) or None in values or values[0] != place:
            raise ToolError(f"{name}: line {place + 2} is no line of this table: {line[:60]}")
        found.append([value for value in values[1:] if value is not None])
    return names[1:], found


def nanoseconds(key: str, text: str) -> int:
    """Seconds with up to nine places behind the point, in nanoseconds."""
    if not re.fullmatch(r"\d{1,10}(\.\d{1,9})?", text):
        raise ToolError(f"{key}={text}: {key}= takes seconds, with up to nine places behind the point")
    return int(decimal.Decimal(text) * BILLION)


def instant(key: str, text: str) -> int:
    """A time in UTC, in nanoseconds since 1970."""
    try:
        found = datetime.datetime.strptime(text, "%Y-%m-%dT%H:%M:%SZ")
    except ValueError:
        raise ToolError(f"{key}={text}: {key}= takes a time in UTC, as 2026-11-30T06:00:00Z") from None
    return int((found - datetime.datetime(1970, 1, 1)).total_seconds()) * BILLION


class Clock:
    """The time of a packet by its number or its values, as the words say."""

    def __init__(self, said: Dict[str, str]) -> None:
        self.field, self.is_known = said.get("time"), bool({"time", "start"} & set(said))
        for key, others in (("time", ("epoch", "unit")), ("start", ("step",))):
            if wrong := [one for one in others if (one in said) != (key in said)]:
                raise ToolError(f"{wrong[0]}= is missing beside {key}=" if key in said else f"{wrong[0]}= is given without {key}=")
        if {"time", "start"} <= set(said):
            raise ToolError("time= and start= are two ways to tell times: say one")
        if self.is_known:
            self.begin = instant(*next((key, said[key]) for key in ("epoch", "start") if key in said))
            self.unit = nanoseconds(*next((key, said[key]) for key in ("unit", "step") if key in said))

    def lines(self, names: Sequence[str], numbers: List[int], values: List[List[int]]) -> List[Line]:
        """The packets with their numbers, times and values."""
        if self.field is not None and self.field not in names:
            raise ToolError(f"time={self.field}: the table has no such field")
        at = names.index(self.field) if self.field is not None else None
        return [Line(number, self.begin + (number if at is None else own[at]) * self.unit if self.is_known else None, own) for number, own in zip(numbers, values)]


def shown(time: Optional[int]) -> str:
    """A time as text, to the nanosecond if it isn't a whole second."""
    if time is None:
        return ""
    try:
        whole = datetime.datetime(1970, 1, 1) + datetime.timedelta(seconds=time // BILLION)
    except OverflowError:
        raise ToolError(f"the time {time // BILLION} seconds after 1970 has no date") from None
    part = f".{time % BILLION:09}".rstrip("0") if time % BILLION else ""
    return whole.isoformat() + part + "Z"


def apart(name: str, names: Sequence[str]) -> str:
    """A name of a column of its own, which no field has."""
    while name in names:
        name += "_"
    return name


def as_csv(names: List[str], lines: List[Line], _: Fields, __: str) -> Iterator[str]:
    """A line for each packet, after the names of the columns."""
    timed = any(line.time is not None for line in lines)
    yield ",".join([apart("number", names), *([apart("time", names)] if timed else []), *names])
    for line in lines:
        yield ",".join([str(line.number), *([shown(line.time)] if timed else []), *map(str, line.values)])


def influx_name(key: str, text: str, escaped: str) -> str:
    """A measurement, or the key or the value of a tag, as Influx 1 and 2 read it. Some they read as something else, whatever is escaped."""
    try:
        text.encode()
    except UnicodeEncodeError:
        raise ToolError(f"{key}= takes UTF-8") from None
    if not text or text[0] in "#_" or "\\" in text or not text.isprintable():
        raise ToolError(f"{key}={text!r}: Influx takes no empty name, none with a backslash or a control character, and none that begins with # or _")
    return re.sub(f"([{escaped}])", r"\\\1", text)


def series(said: Dict[str, str], tags: List[str], names: Sequence[str]) -> str:
    """The measurement with its tags, none of which has the name of a field."""
    keys = [tag.partition(":")[0] for tag in tags]
    for tag, key in zip(tags, keys):
        if ":" not in tag or key in ("time", "number", *names) or keys.count(key) > 1:
            raise ToolError(f"tag={tag}: tag= takes KEY:VALUE, each KEY once, not time or number, and no field's name")
    pairs = [tuple(influx_name("tag", part, ",= ") for part in tag.split(":", 1)) for tag in tags]
    if "apid" in said:
        pairs.append((apart("apid", [*keys, *names]), said["apid"]))
    return ",".join([influx_name("measurement", said.get("measurement", "pocket"), ", "), *(f"{key}={value}" for key, value in pairs)])


def as_influx(names: List[str], lines: List[Line], fields: Fields, own: str) -> Iterator[str]:
    """A point for each packet. A number of 64 bits without a sign is Influx's own kind of these. Points of one series and time would be one."""
    kinds = {one.name: "u" if one.width == 64 and not one.signed else "i" for one in fields.fields.values()}
    number = apart("number", names)
    before: Dict[Optional[int], int] = {}
    if "time" in names:
        raise ToolError("the field time has the name of Influx's own times")
    for line in lines:
        if line.time in before:
            raise ToolError(f"the packets {before[line.time]} and {line.number} have one time, {shown(line.time)}: Influx would keep one of them alone")
        if line.time is None or abs(line.time) > MOST_INFLUX:
            raise ToolError(f"the packet {line.number} is {line.time} nanoseconds after 1970, which Influx doesn't take: {MOST_INFLUX} at most, before 1970 or after")
        before[line.time] = line.number
        values = [f"{number}={line.number}i"] + [f"{name}={value}{kinds[name]}" for name, value in zip(names, line.values)]
        yield f"{own} {','.join(values)} {line.time}"


def stretches(name: str, place: int, low: int, high: int, lines: List[Line]) -> Iterator[Tuple[int, int, str]]:
    """The stretches of packets at which a field is out of one of its limits: of each the first packet, the field's place, and the line."""
    def value(line: Line) -> int:
        return line.values[place]

    runs = [(side, list(own)) for side, own in itertools.groupby(lines, lambda line: (value(line) > high) - (value(line) < low))]
    for (side, own), after in itertools.zip_longest(runs, [own[0] for _, own in runs[1:]]):
        if side:
            worst = max(own, key=value) if side > 0 else min(own, key=value)
            limit = ["high", high] if side > 0 else ["low", low]
            left = [after.number, shown(after.time)] if after else ["", ""]
            cells = [name, *limit, own[0].number, shown(own[0].time), *left, len(own), value(worst), worst.number, shown(worst.time)]
            yield own[0].number, place, ",".join(map(str, cells))


def as_events(names: List[str], lines: List[Line], fields: Fields, _: str) -> Iterator[str]:
    """A line for each stretch of a field out of its limits, in the order in which they begin."""
    yield "field,limit,bound,entered,entered_time,left,left_time,packets,worst,worst_at,worst_time"
    found = [one for place, name in enumerate(names) if name in fields.limits for one in stretches(name, place, *fields.limits[name], lines)]
    yield from (text for _, _, text in sorted(found))


FORMS = {"csv": as_csv, "influx": as_influx, "events": as_events}


def lines_of(said: Dict[str, str], clock: Clock, fields: Fields) -> Tuple[List[str], List[Line], str]:
    """The names of a table's fields, its packets, and what has to be told of their times."""
    names, values = table_of(said["table"])
    if {"fields", "bits"} <= set(said) and list(fields.fields) != names:
        raise ToolError(f"the fields of {said['fields']} are not those of {said['table']}")
    rows = rows_of(said["report"], number_of(said, "apid", 0, IDLE - 1))
    restored = list(written(said["report"], rows))
    count = sum(max(0, one.stop - one.start) for one in restored)
    if count != len(values):
        which = f" of APID {said['apid']}" if "apid" in said else ""
        more = f": the table has to be that of this APID's packets alone, which restore apid={said['apid']} gives" if "apid" in said else ""
        raise ToolError(f"{said['table']} has {len(values)} packets, and by {said['report']} {count}{which} were restored{more}")
    return names, clock.lines(names, list(itertools.chain(*restored)), values), restarts(said["report"], rows) if "start" in said else ""


def choice_of(said: Dict[str, str], tags: List[str]) -> Tuple[str, Clock]:
    """The form and the times. All words are looked at before anything is read."""
    form = said.get("as", "csv")
    if form not in FORMS:
        raise ToolError(f"as={form}: as= takes csv, influx or events")
    if form != "csv" and not {"fields", "bits"} <= set(said):
        raise ToolError(f"as={form} takes fields= and bits=, those of the table")
    if form != "influx" and (tags or "measurement" in said):
        raise ToolError("tag= and measurement= go with as=influx")
    clock = Clock(said)
    if form == "influx" and not clock.is_known:
        raise ToolError("as=influx takes start= and step=, or time=: Influx keeps one point of one time")
    series(said, tags, [])
    return form, clock


def run(words: List[str]) -> int:
    """Writes a table in another form."""
    tags = [word[len("tag="):] for word in words if word.startswith("tag=")]
    said = given([word for word in words if not word.startswith("tag=")], KEYS, ["table", "report"])
    form, clock = choice_of(said, tags)
    bits = number_of(said, "bits", 1, MOST_BITS)
    inputs = [said[key] for key in ("table", "report", "fields") if key in said]
    with outputs("numbers", {"out": said.get("out", "-")}, inputs) as (out, tell):
        fields = fields_of(said["fields"], bits) if "fields" in said and bits is not None else Fields()
        names, lines, doubt = lines_of(said, clock, fields)
        if doubt:
            tell(doubt)
        if form == "events" and not fields.limits:
            tell(f"{said['fields']} has no limit, so there are no events")
        for text in FORMS[form](names, lines, fields, series(said, tags, names)):
            out.write(text.encode() + b"\n")
    return 0
