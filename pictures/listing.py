"""The picture of a listing: one cell for each packet, or for many lost ones, or for several that have no room alone."""

import re
from collections import Counter

from svg import DARK, MOST, NUMBER, Wrong, numbers, picture, words

FEW = 16  # so many cells are large
ROW = 100  # columns of small cells
TOGETHER = 10  # of more lost packets in a row all are in one cell
WIDE = 3  # its columns
CELLS = 3000  # more cells are drawn together, the worst of each in the place of all

# What can become of a packet, the best first: its letter, fill, the colour of the letter, and the words of the legend. The colours are told
# apart without colour vision by their lightness too, and the letter says the same.
KINDS = {
    "written": ("", "#a6d3f2", "#000000", "written; the bar is its level, from 0 to 15"),
    "lost": ("L", "#ffffff", "#000000", "lost: it did not arrive"),
    "gap": ("G", "#f5e663", "#000000", "gap: its level does not reach back to what is known"),
    "unsynced": ("U", "#e69f00", "#000000", "unsynced: nothing is known that it builds on"),
    "wrong": ("W", "#a63c00", "#ffffff", "wrong: its data are no packet's"),
    "early": ("E", "#5b2a6e", "#ffffff", "early: its data end too early"),
}

HEX = "(?:[0-9a-f]{2})+"
LINES = [(kind, re.compile(text)) for kind, text in [
    ("lost", f"{NUMBER}-{NUMBER} lost"),
    ("written", f"{NUMBER} written {NUMBER} {HEX} (-|{HEX}) ({HEX})"),
    ("repeat", f"{NUMBER} repeat"),
    ("unsynced", f"{NUMBER} unsynced( mask {HEX})?"),
    ("gap", f"{NUMBER} gap {NUMBER}( mask {HEX})?"),
    ("wrong", f"{NUMBER} wrong {NUMBER}"),
    ("early", f"{NUMBER} early {NUMBER}"),
    ("end", f"end {NUMBER} {NUMBER} {NUMBER}"),
]]


class Packet:
    """What became of the packet of one number, or of several in a row."""

    def __init__(self, kind, first=0, last=None, level=None, detail="", mask="", content="", repeats=0):
        self.kind, self.first, self.last = kind, first, first if last is None else last
        self.level, self.detail, self.mask, self.content, self.repeats = level, detail, mask, content, repeats
        self.kinds = None

    def told(self):
        """It in words."""
        again = f", repeated {self.repeats} times" if self.repeats > 1 else ", repeated once" if self.repeats else ""
        if self.kinds:
            each = ", ".join(f"{count} {kind}" for kind, count in self.kinds.items())
            return f"{numbers(self.first, self.last)}: {each}{again and ', repeats'}"
        return f"{numbers(self.first, self.last)}: {self.kind}{self.detail}{self.mask}{again}"

    def count(self):
        return self.last - self.first + 1


def read_line(kind, found, packets):
    """Adds what a line of a listing tells to the packets before it, or says what is wrong."""
    group = found.group
    comes = packets[-1].last + 1 if packets else 0
    if kind == "repeat":
        if not packets or int(group(1)) != comes - 1:
            return "it repeats a packet that is not the latest one"
        packets[-1].repeats += 1
        return None
    if int(group(1)) != comes:
        return f"packet {comes} comes next"
    if kind == "lost":
        last = int(group(2))
        packets += [Packet(kind, comes, last)] if last - comes >= TOGETHER else [Packet(kind, number) for number in range(comes, last + 1)]
        return "its last number is below its first" if last < comes else None
    if kind == "written":
        packets.append(Packet(kind, comes, None, int(group(2)), f", level {group(2)}", ", its mask is not known" if group(3) == "-" else "", group(4)))
    elif kind == "gap":
        packets.append(Packet(kind, comes, None, int(group(2)), f", level {group(2)}", ", its mask is known" if group(3) else ""))
    elif kind == "unsynced":
        packets.append(Packet(kind, comes, mask=", its mask is known" if group(2) else ""))
    else:
        packets.append(Packet(kind, comes, detail=f", {'bit' if kind == 'wrong' else 'bits'} {group(2)}"))
    return "a level is at most 15" if (packets[-1].level or 0) > 15 else None


def totals(packets):
    """How many packets there are of each kind."""
    found = Counter()
    for packet in packets:
        found[packet.kind] += packet.count()
    return found


def read_listing(text):
    """The packets of a listing, in order, and whether it has its last line."""
    packets, whole = [], False
    for number, line in enumerate(text.splitlines(), 1):
        kind, found = next(((kind, found) for kind, form in LINES if (found := form.fullmatch(line))), (None, None))
        fault = "nothing comes after the last line" if whole else "it is no line of a listing" if found is None else f"more than {MOST} lines" if number > MOST else None
        if fault is None and kind == "end":
            whole = True
            repeats, counts = sum(packet.repeats for packet in packets), totals(packets)
            wanted = [sum(counts.values()) - counts["lost"] + repeats, counts["written"], repeats]
            if wanted != [int(found.group(place)) for place in (1, 2, 3)]:
                fault = "the lines before it have other numbers: {} {} {}".format(*wanted)
        elif fault is None:
            fault = read_line(kind, found, packets)
        if fault:
            raise Wrong(f"line {number} is wrong: {fault}: {line[:60]!r}")
    return packets, whole


def together(packets):
    """Several packets as one, of which the worst is seen."""
    if len(packets) == 1:
        return packets[0]
    worst = max(packets, key=lambda packet: list(KINDS).index(packet.kind))
    levels = [packet.level for packet in packets if packet.kind == worst.kind and packet.level is not None]
    found = Packet(worst.kind, packets[0].first, packets[-1].last, min(levels, default=None), repeats=sum(packet.repeats for packet in packets))
    found.kinds = totals(packets)
    return found


def cell(x, y, width, height, packet):
    """What became of a packet, drawn: its colour, its letter, a bar for its level, a ring for repeats, and in the lower corner a
    dash if the content alone is known, a dot if the mask alone is."""
    letter, fill, ink, _ = KINDS[packet.kind]
    parts = [f"<rect x='{x:g}' y='{y:g}' width='{width:g}' height='{height:g}' fill='{fill}' stroke='#444444' stroke-width='1'/>"]
    if packet.kind == "lost":
        parts.append(f"<path d='M{x:g} {y + height:g}L{x + width:g} {y:g}' stroke='#999999' stroke-width='1'/>")
    if packet.kind == "written" and packet.level:
        bar, left, wide = (height - 2) * packet.level / 15, x + 1 if width > 20 else x + width * 0.3, min(width * 0.4, 6)
        parts.append(f"<rect x='{left:g}' y='{y + height - 1 - bar:g}' width='{wide:g}' height='{bar:g}' fill='{DARK}'/>")
    if letter:
        size = round(min(width, height) * 0.75)
        parts.append(words(x + width / 2, y + height / 2 + size * 0.36, letter, size, "middle", ink, "bold"))
    if packet.mask and packet.kind == "written":
        parts.append(f"<path d='M{x + width - 6:g} {y + height - 3:g}h5' stroke='{ink}' stroke-width='2'/>")
    elif packet.mask:
        parts.append(f"<circle cx='{x + width - 3:g}' cy='{y + height - 3:g}' r='2' fill='{ink}'/>")
    if packet.repeats:
        parts.append(f"<circle cx='{x + width - 3:g}' cy='{y + 3:g}' r='2.5' fill='#ffffff' stroke='#000000' stroke-width='1.2'/>")
    return "".join(parts)


def legend(x, y, packets):
    """What the cells mean, and how many there are of each; of those that are there alone."""
    counts = totals(packets)
    rows = [(Packet(kind, level=6 if kind == "written" else None), f"{counts[kind]} {KINDS[kind][3]}") for kind in KINDS if counts[kind]]
    if any(packet.mask and packet.kind == "written" for packet in packets):
        rows.append((Packet("written", mask="-"), "dash: written, and its mask is not known"))
    known = [packet.kind for packet in packets if packet.mask and packet.kind != "written"]
    if known:
        rows.append((Packet(known[0], mask="m"), "dot: its mask is known, its content is not"))
    if any(packet.repeats for packet in packets):
        rows.append((Packet("written", repeats=1), f"ring: repeats arrived, {sum(packet.repeats for packet in packets)} in all"))
    parts = [cell(x, y + 20 * place, 14, 14, packet) + words(x + 22, y + 20 * place + 12, text) for place, (packet, text) in enumerate(rows)]
    return parts, y + 20 * len(rows)


def short(count):
    """A number of at most five figures, or of millions."""
    return str(count) if count < 100_000 else f"{count // 1000}k" if count < 10_000_000 else f"{count // 1_000_000}M"


def large_cells(packets, x, y):
    """A few packets in one row, each with its number and level, and with its content if that is short."""
    parts = []
    for place, packet in enumerate(packets):
        left = x + 52 * place
        level = f"level {packet.level}" if packet.level is not None else packet.kind if packet.count() == 1 else f"{short(packet.count())} {packet.kind}"
        content = words(left + 25, y + 43, packet.content.upper(), 12, "middle", weight="bold") if 0 < len(packet.content) <= 4 else ""
        drawn = words(left + 22, y + 12, str(packet.first), 12, "middle") + cell(left, y + 18, 44, 40, packet) + content
        parts.append(f"<g><title>{packet.told()}</title>{drawn}{words(left + 22, y + 72, level, 10, 'middle')}</g>")
    return parts, y + 84, x + 52 * len(packets)


def rows_of(packets):
    """The packets in rows of a hundred columns, each with its column; what is one cell for many has some columns more."""
    rows, column = [], ROW
    for packet in packets:
        wide = WIDE if packet.count() > 1 and not packet.kinds else 1
        if column + wide > ROW:
            rows.append([])
            column = 0
        rows[-1].append((column, wide, packet))
        column += wide
    return rows


def small_cells(packets, x, y):
    """Many packets in rows of a hundred columns; those of the numbers 0, 10, 20 .. are marked at the top if all rows have the same."""
    rows, parts = rows_of(packets), []
    if all(packet.count() == 1 for packet in packets):
        parts += [words(x + 11 * place + 5, y + 12, str(place), 9, "middle") for place in range(0, min(ROW, len(packets)), 10)]
    for number, row in enumerate(rows):
        top = y + 18 + 17 * number
        parts.append(words(x - 6, top + 10, str(row[0][2].first), 10, "end"))
        for column, wide, packet in row:
            left = x + 11 * column
            drawn = cell(left, top, 11 * wide - 1, 13, packet) if wide == 1 else lost_cell(left, top, 11 * wide - 1, packet)
            parts.append(f"<g><title>{packet.told()}</title>{drawn}</g>")
    return parts, y + 18 + 17 * len(rows) + 10, x + 11 * min(ROW, max(column + wide for row in rows for column, wide, _ in row))


def lost_cell(x, y, width, packet):
    """Many lost packets in one cell: how many, in the place of the letter."""
    box = f"<rect x='{x:g}' y='{y:g}' width='{width:g}' height='13' fill='#ffffff' stroke='#444444' stroke-width='1'/>"
    return box + words(x + width / 2, y + 10, short(packet.count()), 9, "middle", weight="bold")


def draw_listing(text):
    packets, whole = read_listing(text)
    counts, count = totals(packets), packets[-1].last + 1 if packets else 0
    title = f"{count} packets, of which {counts['written']} are written" if packets else "no packets"
    each = -(-len(packets) // CELLS)
    shown = [together(packets[place:place + each]) for place in range(0, len(packets), each)] if each > 1 else packets
    left = 14 if len(shown) <= FEW else 60 + 4 * max(0, len(str(count)) - 6)
    cells, bottom, right = (large_cells if len(shown) <= FEW else small_cells)(shown, left, 36)
    keys, end = legend(14, bottom + 6, packets)
    notes = [f"Each cell stands for {each} of the lines; its colour is that of the worst packet there."] if each > 1 else []
    if any(packet.count() > 1 for packet in packets):
        notes.append("A cell with a number: so many lost packets in a row.")
    for note in notes + ["The listing has no last line: the store was not read to its end."] * (not whole):
        keys.append(words(14, end + 12, note, weight="bold"))
        end += 20
    return picture(max(right + 14, 480), end + 10, title, cells + keys)
