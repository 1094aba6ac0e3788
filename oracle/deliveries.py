"""What changed between two SDfiles, record by record: a list made from the two readings alone.

Its case is two files, the rooms of the four tables and of the lent list, counted in differences:

    changes OLD_ATOMS OLD_BONDS NEW_ATOMS NEW_BONDS LIST_ROOM OLD_SIZE NEW_SIZE     OLD_SIZE bytes, NEW_SIZE bytes: the SDfiles
    changes COUNT list D old TABLES new TABLES
    refused NUMBER line LINE column COLUMN list D old TABLES new TABLES

A difference is seven numbers in the list (`seven`). The tables are for the work in between and end zero, but stay as they were after 2.
`python3 deliveries.py OLD NEW` writes the list, one JSON object a line; its status is 0, 1 or 2, as `diff` has it.
"""

import json
import sys
from itertools import zip_longest
from typing import NamedTuple

from ctfile import sdfile, table_rooms
from forms import SYMBOLS
from limit import LIMIT
from lines import Refusal, Sheet

ATOM_FIELDS = ("x y z symbol mass_difference charge radical isotope parity hydrogen_count care valence h0 map inversion "
               "exact").split()
BOND_FIELDS = "first second type stereo topology centre".split()
COUNTS = ("atoms", "bonds", "chiral")       # parts, in the order of a reading


class Difference(NamedTuple):
    """Where two readings differ: `place` says what beside the record and the part names it. A side that has nothing there is None;
    of an item or record on one side only, the other side is True."""

    record: int
    part: str
    place: tuple
    old: object
    new: object

    def exchanged(self):
        return self._replace(old=self.new, new=self.old)


def rows_that_differ(part, fields, old, new):
    """Figures of atoms or bonds, up to the smaller count."""
    for number, (a, b) in enumerate(zip(old, new), 1):
        for field, x, y in zip(fields, a, b):
            if x != y:
                yield part, (number, field), x, y


def items_that_differ(old, new):
    """Items place by place; of one that stands on one side only nothing else is told."""
    for place, (a, b) in enumerate(zip_longest(old, new), 1):
        if a is None or b is None:
            yield "item", (place,), a and True, b and True
            continue
        if a[0] != b[0]:
            yield "name", (place,), a[0], b[0]
        for line, (x, y) in enumerate(zip_longest(a[1], b[1]), 1):
            if x != y:
                yield "value", (place, line), x, y


def parts_that_differ(old, new):
    """Two readings as Record.reading gives them: header, n, m, chiral, atoms, bonds, items."""
    for line, (x, y) in enumerate(zip(old[0], new[0]), 1):
        if x != y:
            yield "header", (line,), x, y
    for part, x, y in zip(COUNTS, old[1:4], new[1:4]):
        if x != y:
            yield part, (), x, y
    yield from rows_that_differ("atom", ATOM_FIELDS, old[4], new[4])
    yield from rows_that_differ("bond", BOND_FIELDS, old[5], new[5])
    yield from items_that_differ(old[6], new[6])


def differences(old, new):
    """All differences of two lists of readings."""
    for number, (a, b) in enumerate(zip_longest(old, new), 1):
        if a is None or b is None:
            yield Difference(number, "record", (), a and True, b and True)
        else:
            yield from (Difference(number, *where) for where in parts_that_differ(a, b))


def readings(data, wrong):
    """The readings of a good file; a refusal takes the number that says which file it is."""
    try:
        return [record.reading() for record in sdfile(Sheet(data))]
    except Refusal as refusal:
        raise Refusal(wrong, refusal.line, refusal.column) from None


def compare(old, new):
    first = readings(old, 36)
    return list(differences(first, readings(new, 37)))


def compare_into(old, new, tables, room):
    """("changes", count) with all differences, or the refusal with none. `tables` are the old file's and the new one's, atoms and bonds."""
    try:
        if min(table_rooms(*tables[:2]) + table_rooms(*tables[2:])) < LIMIT:
            raise Refusal(2)
        for table, width in zip(tables, (16, 6, 16, 6)):
            table[:LIMIT * width] = [0] * (LIMIT * width)
        found = compare(old, new)
        if len(found) > room:
            raise Refusal(39)
        return ("changes", len(found)), found
    except Refusal as refusal:
        return refusal.answer(), []


PARTS = "header atoms bonds chiral atom bond name value item record".split()


def seven(difference):
    """Record, part, place, field, side and both figures: numbers count from 1, and 0 stands where there is none. Figures of texts
    are 0; the side is 0 for both, 1 for the old file alone, 2 for the new one alone."""
    place, field = (difference.place + (0, 0))[:2]
    if difference.part in ("atom", "bond"):
        field = 1 + (ATOM_FIELDS if difference.part == "atom" else BOND_FIELDS).index(field)
    figures = difference.part in ("atoms", "bonds", "chiral", "atom", "bond")
    side = 1 if difference.new is None else 2 if difference.old is None else 0
    return [difference.record, 1 + PARTS.index(difference.part), place, field, side,
            *((difference.old, difference.new) if figures else (0, 0))]


PLACE_NAMES = {"header": ("line",), "atom": ("number", "field"), "bond": ("number", "field"), "name": ("item",), "value": ("item", "line"),
               "item": ("item",)}


def json_value(difference, value):
    if isinstance(value, bytes):
        return value.decode()
    return SYMBOLS[value - 1] if difference.place[1:] == ("symbol",) else value


def json_line(difference):
    told = {"record": difference.record, "part": difference.part}
    told.update(zip(PLACE_NAMES.get(difference.part, ()), difference.place))
    if difference.part in ("item", "record"):
        told["only"] = "old" if difference.old else "new"
    else:
        told["old"], told["new"] = (json_value(difference, side) for side in (difference.old, difference.new))
    return json.dumps(told, separators=(",", ":"), ensure_ascii=False)


def main(old, new):
    with open(old, "rb") as first, open(new, "rb") as second:
        try:
            found = compare(first.read(), second.read())
        except Refusal as refusal:
            print("refused %d line %d column %d" % refusal.args)
            return 2
    for difference in found:
        print(json_line(difference))
    return 1 if found else 0


if __name__ == "__main__":
    sys.exit(main(*sys.argv[1:]))
