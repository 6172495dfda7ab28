HELP = """python3 -m pocket pack fields=F bits=N [in=CSV]: a recording out of a table of numbers, which is the inverse of the command `table`.

    python3 -m pocket pack fields=hk.fields bits=64 in=numbers.csv out=hk.rec

The first line of the CSV has names of fields, in any order; each further one is a packet. A field that it doesn't name is 0, and columns
that are no field are refused, but for `t` and `number`, which are passed over unless they are fields. A number that its field can't say,
or that says another bit than a field before it which lies over it, is refused with its line and column. What this command decides is
tested, not proved.
"""

import csv
import io
from typing import Dict, Iterator, List, Optional

from .fields import Field, fields_of
from .calls import MOST_BITS
from .tool import ToolError, contents, given, number_of, outputs, whole_number

KEYS = ("fields", "bits", "in", "out")
PASSED_OVER = ("t", "number")


def columns_of(name: str, header: List[str], fields: Dict[str, Field]) -> List[Optional[Field]]:
    """The field of each column, or nothing if it is passed over."""
    found: List[Optional[Field]] = []
    for place, text in enumerate(header, 1):
        # (of two columns t of a table with a field t the first is the packet's place)
        is_place = text in PASSED_OVER and (text not in fields or (place == 1 and header.count(text) > 1))
        if not is_place and text not in fields:
            raise ToolError(f"{name}: line 1, column {place}: no field has the name {text}")
        if not is_place and fields[text] in found:
            raise ToolError(f"{name}: line 1, column {place}: {text} stands twice")
        found.append(None if is_place else fields[text])
    if not any(found):
        raise ToolError(f"{name}: line 1 names no field")
    return found


def packed(name: str, line: int, row: List[str], columns: List[Optional[Field]], bits: int) -> int:
    """A packet as a number of so many bits, place 0 the one of the greatest weight."""
    packet = taken = 0
    if len(row) != len(columns):
        raise ToolError(f"{name}: line {line} has {len(row)} columns, and the first line {len(columns)}")
    for place, (text, own) in enumerate(zip(row, columns), 1):
        if own is None:
            continue
        low, high = own.range()
        value = whole_number(text, low, high)
        if value is None:
            raise ToolError(f"{name}: line {line}, column {place}: {own.name} takes a number from {low} to {high}, and not {text or 'nothing'}")
        shift, ones = bits - own.place - own.width, (1 << own.width) - 1
        put, over = (value & ones) << shift, taken & ones << shift
        if packet & over != put & over:
            raise ToolError(f"{name}: line {line}, column {place}: {own.name} lies over a field before it, which says another bit")
        packet, taken = packet | put, taken | ones << shift
    return packet


def packets(name: str, text: str, fields: Dict[str, Field], bits: int) -> Iterator[bytes]:
    """The packets of a table."""
    rows = csv.reader(io.StringIO(text, newline=""), strict=True)
    size = -(-bits // 8)
    try:
        columns = columns_of(name, next(rows, []), fields)
        for row in rows:
            if row:
                yield (packed(name, rows.line_num, row, columns, bits) << 8 * size - bits).to_bytes(size, "big")
    except csv.Error as error:
        raise ToolError(f"{name}: line {rows.line_num}: {error}") from error


def run(words: List[str]) -> int:
    """Writes the recording."""
    said = given(words, KEYS, ["fields", "bits"])
    name, bits = said.get("in", "-"), number_of(said, "bits", 1, MOST_BITS) or 0
    with outputs("pack", said, [name, said["fields"]]) as (out, _):
        try:
            text = contents(name).decode("ascii")
        except UnicodeDecodeError as error:
            raise ToolError(f"{name}: byte {error.start} is no ASCII letter") from None
        # (all of it is looked at before any is written)
        out.write(b"".join(packets(name, text, fields_of(said["fields"], bits).fields, bits)))
    return 0
