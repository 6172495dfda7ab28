"""The picture of a table: the fields of a recording over the packets' places, one strip for each."""

import csv
import re

from svg import DARK, MOST, NUMBER, Wrong, numbers, picture, ticks, words

SIGNED = "(?:0|-?[1-9][0-9]*)"
NAME = "[A-Za-z][A-Za-z0-9_]{0,31}"
TABLE_HEADER = re.compile(f"t((?:,{NAME})*)")
TABLE_LINE = re.compile(f"{NUMBER}((?:,{SIGNED})*)")
WIDE, HIGH, STEP = 720, 56, 92  # a strip, and from one to the next
APART = 9  # marks are at least so far apart
NOTES = ["Dashed lines: limits. Triangle up: a value above its limit; triangle down: one below it; where they would overlap, one for several.",
         "Above and below the strips: the packets' places in the recording."]


def read_table(text):
    """The values of each field of a table by its name, and how many packets it has."""
    lines = text.splitlines()
    found = TABLE_HEADER.fullmatch(lines[0]) if lines else None
    if not found:
        raise Wrong("line 1 of the table is wrong: it names no fields")
    names = found.group(1).split(",")[1:]
    if len(lines) - 1 > MOST:
        raise Wrong(f"the table has more than {MOST} packets")
    values = {name: [] for name in names}
    for number, line in enumerate(lines[1:], 2):
        found = TABLE_LINE.fullmatch(line)
        cells = found.group(2).split(",")[1:] if found else []
        if not found or len(cells) != len(names) or int(found.group(1)) != number - 2:
            raise Wrong(f"line {number} of the table is wrong: it has not packet {number - 2} and {len(names)} values: {line[:60]!r}")
        for name, cell in zip(names, cells):
            values[name].append(int(cell))
    return values, len(lines) - 1


def read_limits(path):
    """The limits that a parameter file of `table` gives to its fields, by their names."""
    with open(path, newline="", encoding="utf-8-sig") as file:
        return {row[1]: (int(row[2]), int(row[3])) for row in csv.reader(file) if row[:1] == ["limit"] and len(row) == 4}


def check_report(text, values, count, limits):
    """That a report lists what a table has out of the limits, in order, and no more."""
    wanted = [f"{t},{name},{values[name][t]},{limits[name][0]},{limits[name][1]}" for t in range(count) for name in values
              if name in limits and not limits[name][0] <= values[name][t] <= limits[name][1]]
    lines = text.splitlines()
    wanted = ["t,name,value,low,high", *wanted, f"end,{count},{len(wanted)}"]
    for number, (line, own) in enumerate(zip(lines + [""], wanted), 1):
        if line != own and number <= len(wanted):
            raise Wrong(f"line {number} of the report is wrong: of this table and these fields it is {own!r}: {line[:60]!r}")
    if len(lines) > len(wanted):
        raise Wrong(f"line {len(wanted) + 1} of the report is wrong: nothing comes after the last line")


def steps(values, across, at):
    """The line of the values as steps: each holds over its packet's place. If several packets share a pixel, the line goes from their
    least value to their greatest one, so that none is left out."""
    parts = [f"M{across(0):.1f} {at(values[0]):.1f}"]
    if len(values) <= WIDE:
        return "".join(parts + [f"V{at(value):.1f}H{across(t + 1):.1f}" for t, value in enumerate(values)])
    for column in range(WIDE):
        first, last = len(values) * column // WIDE, len(values) * (column + 1) // WIDE
        here = values[first:last]
        ends = sorted((min(here), max(here)), key=lambda value: abs(value - here[0]))
        parts.append("".join(f"V{at(value):.1f}" for value in dict.fromkeys([*ends, here[-1]])) + f"H{across(last):.1f}")
    return "".join(parts)


def marks(name, values, limit, across, at):
    """A mark at each value out of the limits; where they would lie over one another, one for several, at the farthest value."""
    near = {}
    for t, value in enumerate(values):
        if not limit[0] <= value <= limit[1]:
            near.setdefault((value > limit[1], int((across(t) + across(t + 1)) / 2 / APART)), []).append(t)
    parts = []
    for (above, _), places in near.items():
        far = (max if above else min)(places, key=lambda t: values[t])
        x, y, side = (across(far) + across(far + 1)) / 2, at(values[far]), f"{'above' if above else 'below'} {limit[above]}"
        told = f"packet {far}: {name} is {values[far]}, {side}"
        if len(places) > 1:
            told = f"{numbers(places[0], places[-1])}: {len(places)} values of {name} {side}, the farthest {values[far]} in packet {far}"
        shape = f"M{x - 4:.1f} {y + 4:.1f}h8l-4 -8z" if above else f"M{x - 4:.1f} {y - 4:.1f}h8l-4 8z"
        parts.append(f"<g><title>{told}</title><path d='{shape}' fill='#e69f00' stroke='#000000' stroke-width='0.8'/></g>")
    return parts


def strip(name, values, limit, top, left):
    """A field over the packets' places in the recording: its values as steps, its limits as lines, and a mark at values out of them."""
    low, high = min(values + list(limit or ())), max(values + list(limit or ()))
    at = lambda value: top + HIGH - (HIGH * (value - low) / (high - low) if high > low else HIGH / 2)
    across = lambda t: left + WIDE * t / len(values)
    parts = [words(left, top - 8, name, 12, weight="bold"), words(left - 6, top + 9, str(high), 10, "end"), words(left - 6, top + HIGH, str(low), 10, "end"),
             f"<rect x='{left}' y='{top}' width='{WIDE}' height='{HIGH}' fill='#f7f7f7' stroke='#bbbbbb'/>"]
    for bound in limit or ():
        parts.append(f"<path d='M{left} {at(bound):.1f}h{WIDE}' stroke='#a63c00' stroke-width='1' stroke-dasharray='6 4'/>"
                     + words(left + WIDE + 6, at(bound) + 4, str(bound), 10, fill="#a63c00"))
    parts.append(f"<path d='{steps(values, across, at)}' fill='none' stroke='{DARK}' stroke-width='1.5'/>")
    return parts + (marks(name, values, limit, across, at) if limit else [])


def axis(count, left, y):
    """The packets' places, at some of them."""
    return [words(left + WIDE * (t + 0.5) / count, y, str(t), 10, "middle") for t in ticks(count)]


def draw_table(text, report, fields):
    values, count = read_table(text)
    limits = {name: limit for name, limit in read_limits(fields).items() if name in values}
    with open(report, encoding="ascii", errors="replace") as file:
        check_report(file.read(), values, count, limits)
    outside = sum(not limits[name][0] <= value <= limits[name][1] for name in limits for value in values[name])
    title = f"{count} packets with {len(values)} fields, {outside} values out of their limits"
    left, parts, bottom = 96, [], 40
    for place, (name, own) in enumerate(values.items() if count else ()):
        parts += strip(name, own, limits.get(name), 76 + STEP * place, left)
        bottom = 76 + STEP * place + HIGH
    if bottom > 40:
        parts += axis(count, left, 46) + axis(count, left, bottom + 16)
        parts += [words(left, bottom + 36 + 16 * row, text, 11) for row, text in enumerate(NOTES)]
    return picture(left + WIDE + 90, bottom + 66, title, parts)
