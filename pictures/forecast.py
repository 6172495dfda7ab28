"""The picture of a forecast: a strip by number, in rows."""

import re
from collections import Counter

from svg import MOST, NUMBER, Wrong, numbers, picture, words

# What can be said of a packet without a recording, the best first: its letter, fill, the colour of the letter, and the words of the legend.
STATES = {
    "sure": ("", "#a6d3f2", "#000000", "sure: written, whatever the recording is"),
    "open": ("?", "#f5e663", "#000000", "open: it arrives, and the recording decides"),
    "lost": ("L", "#ffffff", "#000000", "lost: it does not arrive"),
}
STRIP = 1000  # the width of a row
ROWS = 20  # so many rows at most
LEAST = 100  # packets in a row
COLUMN = 4  # what is narrower is drawn with what is beside it
STRETCH = re.compile(f"{NUMBER},{NUMBER},(sure|open|lost)")
GAPS = re.compile(f"gaps,(-|{NUMBER}),{NUMBER}")


def gaps_of(stretches):
    """The first number that arrives, or a dash, and the widest difference of two that do."""
    arrive = [(first, last) for first, last, state in stretches if state != "lost"]
    widest = max([int(any(last > first for first, last in arrive))] + [there[0] - here[1] for here, there in zip(arrive, arrive[1:])])
    return str(arrive[0][0]) if arrive else "-", str(widest)


def read_stretch(line, stretches):
    """Adds the stretch that a line of a forecast tells to those before it, or says what is wrong."""
    found = STRETCH.fullmatch(line)
    if found is None:
        return "it is no line of a forecast"
    first, last, state = int(found.group(1)), int(found.group(2)), found.group(3)
    comes = stretches[-1][1] + 1 if stretches else 0
    if first != comes:
        return f"packet {comes} comes next"
    if last < first or last >= 1_000_000 or len(stretches) >= MOST:
        return "its last number is below its first" if last < first else "more than 1000000 packets" if last >= 1_000_000 else f"more than {MOST} lines"
    if stretches and stretches[-1][2] == state:
        return "the packets before it have the same state"
    stretches.append((first, last, state))
    return None


def read_forecast(text):
    """The stretches of a forecast, in order, and its two last lines' numbers."""
    lines, stretches = text.splitlines(), []
    if lines[:1] != ["first,last,state"]:
        raise Wrong("line 1 is wrong: it is not first,last,state")
    for number, line in enumerate(lines[1:], 2):
        if GAPS.fullmatch(line) and stretches:
            count = stretches[-1][1] + 1
            sure = sum(last - first + 1 for first, last, state in stretches if state == "sure")
            wanted = ["gaps,{},{}".format(*gaps_of(stretches)), f"end,{count},{sure}"]
            for place, (line, right) in enumerate(zip(lines[number - 1:] + ["", ""], wanted), number):
                if line != right:
                    raise Wrong(f"line {place} is wrong: the lines before it have other numbers: {right}: {line[:60]!r}")
            if len(lines) > number + 1:
                raise Wrong(f"line {number + 2} is wrong: nothing comes after the last line: {lines[number + 1][:60]!r}")
            return stretches, count, sure
        fault = read_stretch(line, stretches)
        if fault:
            raise Wrong(f"line {number} is wrong: {fault}: {line[:60]!r}")
    raise Wrong(f"line {len(lines) + 1} is wrong: the forecast has no last line")


def strip_part(x, y, width, told, state):
    """A part of the strip: its colour, and its letter if there is room."""
    letter, fill, ink, _ = STATES[state]
    parts = [f"<rect x='{x:g}' y='{y:g}' width='{width:g}' height='18' fill='{fill}' stroke='#444444' stroke-width='{1 if width > 4 else 0.2}'/>"]
    if state == "lost":
        parts.append(f"<path d='M{x:g} {y + 18:g}L{x + width:g} {y:g}' stroke='#999999' stroke-width='1'/>")
    if letter and width >= 10:
        parts.append(words(x + width / 2, y + 14, letter, 13, "middle", ink, "bold"))
    return f"<g><title>{told}</title>{''.join(parts)}</g>"


def totals(stretches):
    """How many packets there are of each state."""
    found = Counter()
    for first, last, state in stretches:
        found[state] += last - first + 1
    return found


def told(stretches):
    """A part of the strip in words."""
    words_of, (first, last) = totals(stretches), (stretches[0][0], stretches[-1][1])
    return f"{numbers(first, last)}: " + (stretches[0][2] if len(words_of) == 1 else ", ".join(f"{words_of[state]} {state}" for state in STATES if words_of[state]))


def rows_of(stretches, each):
    """The stretches row by row; one that goes on in the next row is in both."""
    rows = [[] for _ in range(-(-(stretches[-1][1] + 1) // each))]
    for first, last, state in stretches:
        for row in range(first // each, last // each + 1):
            rows[row].append((max(first, row * each), min(last, row * each + each - 1), state))
    return rows


def columns(row, each):
    """The parts of a row: first and last packet, what is there, and the worst state there. If a packet is narrower than a column, what shares
    a column is one part, which has whole columns, so that no loss is narrower than that; a part that lies in no such column stays alone."""
    wide = each * COLUMN // STRIP
    if wide <= 1:
        return [(first, last, [(first, last, state)], state) for first, last, state in row]
    start, found = row[0][0] - row[0][0] % each, []
    edge = lambda number: start + (number - start) // wide * wide
    for first, last, state in row:
        while first <= last:
            # what is in the column of `first`, or all that fills columns alone
            end = edge(last + 1) - 1 if first == edge(first) and edge(last + 1) > first else min(last, edge(first) + wide - 1)
            if found and found[-1][0] == edge(first):
                found[-1][2].append((first, end, state))
            else:
                found.append((edge(first), max(end, edge(first) + wide - 1), [(first, end, state)]))
            first = end + 1
    most = row[-1][1]
    return [(first, min(last, most), parts, max((state for *_, state in parts), key=list(STATES).index)) for first, last, parts in found]


def draw_forecast(text):
    """The strip in rows, each with the number of its first packet."""
    stretches, count, sure = read_forecast(text)
    each = max(LEAST, -(-count // ROWS))
    drawn = []
    for row, own in enumerate(rows_of(stretches, each)):
        for first, last, parts, state in columns(own, each):
            x, width = 70 + STRIP * (first - row * each) / each, STRIP * (last - first + 1) / each
            drawn.append(strip_part(round(x, 2), 54 + 24 * row, round(width, 2), told(parts), state))
    rows = -(-count // each)
    drawn += [words(64, 54 + 24 * row + 13, str(row * each), 10, "end") for row in range(rows)]
    drawn += [words(70 + STRIP * tick / 10, 48, f"+{each * tick // 10}", 9) for tick in range(10) if each * tick // 10 < count]
    sums, bottom = totals(stretches), 54 + 24 * rows + 10
    shown = [state for state in STATES if sums[state]]
    for place, state in enumerate(shown):
        drawn.append(strip_part(14, bottom + 24 * place, 18, state, state) + words(40, bottom + 24 * place + 14, f"{sums[state]} {STATES[state][3]}"))
    title = f"{count} packets, of which {sure} are sure to be written"
    return picture(84 + STRIP, bottom + 24 * len(shown) + 6, title, drawn)
