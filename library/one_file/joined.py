"""Joins the checks of the accesses of a function of the generated part.

An address is told as a sum of what is not known and a number, modulo 2^32. Accesses whose sums differ in the number alone are a group. In a
straight piece all of them are made or none, so they need one check, of their first byte to their last, in front of the first of them, and
so do those in pieces to which each way leads through that one. From there on they go by a pointer. The frame of the stack is a group
that is checked as the function is entered.

An access outside the block ends the call whichever comes first, so it does no harm that it is found before what stands in front of it.
"""

import re
from dataclasses import dataclass, field

NAME = r"[ijlp]\d+"
ACCESS = re.compile(rf"^(i(32|64)_(?:load|store)(8|16|32|)\w*)\(({NAME}), ({NAME}), (\d+)\);$")
ENTER = re.compile(rf"^enter\w*\(({NAME}), (\d+)\);$")
LABEL = re.compile(r"^([BL](?:\d+|func)):;?$")
GOTO = re.compile(r"goto ([BL](?:\d+|func));")
# A statement that sets a variable, and those whose sum is known. Casts of numbers of 32 bits and more are the same modulo 2^32.
SETS = re.compile(rf"^({NAME}) [^ ]*= .*;$|^call\(({NAME}) = .*;$|^(?:i(?:32|64)_load\w*|div_u|rem_u|enter|enter_leaf|memory_equal)\(({NAME}), .*;$")
COPY = re.compile(rf"^{NAME} = (?:\([us](?:32|64)\))*\(?({NAME})\)?;$")
NUMBER = re.compile(rf"^{NAME} = (\d+)u(?:ll)?;$")
SUM = re.compile(rf"^({NAME}) ([+-])= ({NAME});$")
SHIFT = re.compile(rf"^({NAME}) <<= \(({NAME}) & (31|63)\);$")
WORD = 1 << 32
# The bytes of a word, which lie in the block from each offset that is not beyond `last`, and the most of a group (machine.c).
SLACK, MOST = 8, 256


@dataclass
class Group:
    """Accesses with one check: from where to where they go, beside their sum, the name of their pointer, and how many they are."""

    low: int
    high: int
    name: str = ""
    count: int = 0


@dataclass
class Piece:
    """A straight piece of a function: its lines, whither it leads and whence, and the last piece through which each way leads to it. At its
    end: the sums of the variables that are known, and the groups that are checked, by their sums."""

    lines: list = field(default_factory=list)
    to: list = field(default_factory=list)
    whence: list = field(default_factory=list)
    above: int = -1
    values: dict = field(default_factory=dict)
    groups: dict = field(default_factory=dict)


def target(line):
    """The variable that a line sets, or None."""
    found = SETS.match(line)
    return found and (found[1] or found[2] or found[3])


def pieces_of(lines):
    """The straight pieces, in the order of the text."""
    pieces, labels, is_open, in_switch = [Piece()], {}, True, False
    for number, line in enumerate(lines):
        label = LABEL.match(line)
        if label or not (is_open or in_switch):
            if is_open:
                pieces[-1].to.append(len(pieces))
            pieces.append(Piece())
            is_open = True
        if label:
            labels[label[1]] = len(pieces) - 1
        pieces[-1].lines.append(number)
        pieces[-1].to += GOTO.findall(line)
        in_switch = line != "}" and (in_switch or line.startswith("switch "))
        if line.startswith("if "):
            pieces[-1].to.append(len(pieces))
            pieces.append(Piece())
        elif line.startswith(("goto ", "return", "switch ")):
            is_open = False
    for number, piece in enumerate(pieces):
        for to in {labels.get(it, it) for it in piece.to}:
            pieces[to].whence.append(number)
    return pieces


def added(one, other, times):
    """A sum and so many times another."""
    terms = dict(one[1])
    for name, count in other[1]:
        terms[name] = (terms.get(name, 0) + times * count) % WORD
    return (one[0] + times * other[0]) % WORD, tuple(sorted(it for it in terms.items() if it[1]))


class Function:
    """The lines of a function, and by which group each access is made and how far from the group's sum."""

    def __init__(self, lines):
        self.lines, self.unknowns, self.made = lines, 0, {}
        self.pieces = pieces_of(lines)
        for number, piece in enumerate(self.pieces):
            earlier = [it for it in piece.whence if it < number and (it == 0 or self.pieces[it].above >= 0)]
            if earlier:
                self.begin(piece, earlier)
            if earlier or number == 0:
                self.run(piece)

    def unknown(self):
        """The sum of something that is not known."""
        self.unknowns += 1
        return 0, ((self.unknowns, 1),)

    def value(self, piece, name):
        """The sum of a variable: a number, and what is not known, each with how often it is added."""
        return piece.values.setdefault(name, self.unknown())

    def begin(self, piece, earlier):
        """Finds the piece above one, and keeps what is known at its end, but for what is set on a way from there."""
        one = earlier[0]
        for other in earlier[1:]:
            while one != other:
                one, other = min(one, other), self.pieces[max(one, other)].above
        above, between, more = self.pieces[one], set(), set(piece.whence) - {one}
        piece.above, piece.values = one, dict(above.values)
        piece.groups = {terms: list(groups) for terms, groups in above.groups.items()}
        while more:
            between |= more
            more = {it for each in more for it in self.pieces[each].whence} - between - {one}
        for each in sorted(between):
            for line in self.pieces[each].lines:
                piece.values[target(self.lines[line])] = self.unknown()

    def sum_of(self, piece, line, name):
        """The sum of the variable that a line sets."""
        if found := COPY.match(line):
            return self.value(piece, found[1])
        if found := NUMBER.match(line):
            return int(found[1]) % WORD, ()
        if found := SUM.match(line):
            return added(self.value(piece, name), self.value(piece, found[3]), 1 if found[2] == "+" else -1)
        if (found := SHIFT.match(line)) and not self.value(piece, found[2])[1]:
            return added((0, ()), self.value(piece, name), 1 << (self.value(piece, found[2])[0] & int(found[3])))
        return self.unknown()

    def run(self, piece):
        """Reckons the addresses of a piece, and gives its accesses to groups."""
        found = {}
        for number in piece.lines:
            line = self.lines[number]
            if access := ACCESS.match(line):
                constant, terms = self.value(piece, access[5])
                low = (constant + int(access[6]) + WORD // 2) % WORD - WORD // 2
                found.setdefault(terms, []).append((low, low + int(access[3] or access[2]) // 8, number))
            if name := target(line):
                piece.values[name] = self.sum_of(piece, line, name)
            if entered := ENTER.match(line):
                piece.groups[self.value(piece, entered[1])[1]] = [Group(0, int(entered[2]), "frame")]
        for terms, accesses in found.items():
            groups = piece.groups.setdefault(terms, [])
            left = [it for it in accesses if not self.shared(groups, *it)]
            while left:
                low = min(it[0] for it in left)
                groups.append(Group(low, max(it[1] for it in left if it[1] <= low + MOST)))
                left = [it for it in left if not self.shared(groups, *it)]

    def shared(self, groups, low, high, number):
        """Whether an access is one of a group that is there: then it is made by that."""
        for group in groups:
            if group.low <= low and high <= group.high:
                group.count += 1
                self.made[number] = group, low - group.low
                return True
        return False

    def joined(self):
        """The lines, each with those that it becomes, and the names of the pointers."""
        out, names = [], []
        for number, line in enumerate(self.lines):
            group, by = self.made.get(number, (None, 0))
            if group is None or not (group.name or group.count > 1):
                out.append([line])
                continue
            kind, _, _, value, address, constant = ACCESS.match(line).groups()
            out.append([])
            if not group.name:
                group.name = f"a{len(names)}"
                out[-1].append(f"reach({group.name}, {address}, {int(constant) - by}, {max(0, group.high - group.low - SLACK)});")
            if group.name not in names:
                names.append(group.name)
            out[-1].append(f"{kind}_at({value}, {group.name}, {by});")
        if "frame" in names:
            number, entered = next((number, ENTER.match(line)) for number, line in enumerate(self.lines) if ENTER.match(line))
            out[number].append(f"frame = place({entered[1]});")
        return out, names


def of(lines):
    """The lines of a function with their checks joined, and in front of them the declaration of the pointers."""
    out, names = Function([it.strip() for it in lines]).joined()
    declared = [f"  uint8_t {', '.join(f'*{name}' for name in names)};"] if names else []
    return declared + [re.match(" *", line)[0] + it for line, made in zip(lines, out) for it in made]
