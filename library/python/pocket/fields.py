"""The parameter file of the command `table`: fields of a packet, and their limits."""

import csv
import io
import re
from dataclasses import dataclass, field
from typing import Dict, List, NamedTuple, Tuple

from .tool import ToolError, contents, whole_number

NAME = re.compile(r"[A-Za-z][A-Za-z0-9_]{0,31}")
LEAST, MOST = -(2**63), 2**64 - 1
MOST_FIELDS = 256


class Field(NamedTuple):
    """Where a field lies in a packet: its first place, its bits, and whether it has a sign."""

    name: str
    place: int
    width: int
    signed: bool

    def range(self) -> Tuple[int, int]:
        """Its least and its greatest value."""
        return (-(1 << self.width - 1), (1 << self.width - 1) - 1) if self.signed else (0, (1 << self.width) - 1)


@dataclass
class Fields:
    """The fields by name, in the order of their rows, and the low and high of those that have limits."""

    fields: Dict[str, Field] = field(default_factory=dict)
    limits: Dict[str, Tuple[int, int]] = field(default_factory=dict)

    def take(self, row: List[str], bits: int) -> str:
        """Takes a row, or says what is wrong with it."""
        if len(row) == 5 and row[0] == "field":
            return self.take_field(row, bits)
        if len(row) == 4 and row[0] == "limit":
            return self.take_limit(row)
        return "it is neither field,place,width,kind,name nor limit,name,low,high"

    def take_field(self, row: List[str], bits: int) -> str:
        place, width = whole_number(row[1], 0, bits - 1), whole_number(row[2], 1, 64)
        if place is None or width is None or place + width > bits:
            return f"its bits are not within the {bits} of a packet, 64 at most"
        if row[3] not in ("u", "s") or not NAME.fullmatch(row[4]):
            return "its kind is u or s, and its name 1 to 32 letters, digits or _, the first a letter"
        if row[4] in self.fields or len(self.fields) == MOST_FIELDS:
            return f"the name {row[4]} has a row already" if row[4] in self.fields else f"there are {MOST_FIELDS} fields already"
        self.fields[row[4]] = Field(row[4], place, width, row[3] == "s")
        return ""

    def take_limit(self, row: List[str]) -> str:
        low, high = whole_number(row[2], LEAST, MOST), whole_number(row[3], LEAST, MOST)
        if row[1] not in self.fields or row[1] in self.limits:
            return f"no row before it has the field {row[1]}, or it has a limit already"
        if low is None or high is None or low > high:
            return f"its low and high are numbers from {LEAST} to {MOST}, the low at most the high"
        self.limits[row[1]] = low, high
        return ""


def fields_of(name: str, bits: int) -> Fields:
    """The fields that a file names, of packets of so many bits."""
    # (it may begin with a mark of its byte order, and its lines may end with CR alone)
    text = contents(name).decode("utf-8-sig", "replace")
    if not text.isascii():
        raise ToolError(f"{name} is no text of ASCII letters")
    found = Fields()
    try:
        for place, row in enumerate((row for row in csv.reader(io.StringIO(text, newline="")) if row), 1):
            if wrong := found.take(row, bits):
                raise ToolError(f"{name}: row {place}, {','.join(row)}: {wrong}")
    except csv.Error as error:
        raise ToolError(f"{name}: {error}") from error
    return found
