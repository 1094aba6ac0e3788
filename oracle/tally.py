"""Bottles per supplier: how many records each supplier sent, over many SDfiles.

Its case is a list, then a file to add to it:

    tally ROOM ENTRIES MISSING TOTAL SIZE       ENTRIES lines of a count, a space and the supplier; SIZE bytes: the SDfile
    accepted RECORDS entries E missing M total T list D
    refused NUMBER line LINE column COLUMN record R entries E missing M total T list D

ROOM counts tally records. R is the record that met 23, 24 or 25, else 0. D is the digest over the lent memory.
"""

from typing import NamedTuple, Tuple

from ctfile import sdfile
from lines import Refusal, Sheet

NAME = b"SUPPLIER"
LONGEST = 24                # bytes of a supplier
MOST_SUPPLIERS = 64
MOST_RECORDS = 999_999


class Tally(NamedTuple):
    """Entries are pairs of supplier and count, in rising byte order."""

    entries: Tuple = ()
    missing: int = 0
    total: int = 0

    def good(self):
        names = [name for name, _ in self.entries]
        return (all(a < b for a, b in zip(names, names[1:])) and all(len(name) <= LONGEST for name in names)
                and len(names) <= MOST_SUPPLIERS
                and sum(count for _, count in self.entries) + self.missing == self.total <= MOST_RECORDS)


class TallyRefusal(Refusal):
    """One of 23 to 25, which name no line; the record's number in its file is told beside."""

    def __init__(self, number, record):
        super().__init__(number)
        self.record = record


def supplier_of(record):
    """The first value line of the first item SUPPLIER, or None."""
    values = next((item.values for item in record.items if item.name == NAME), [])
    return values[0].text if values else None


def with_record(tally, number, supplier):
    """The tally with one record more, the `number`-th of its file."""
    if tally.total == MOST_RECORDS:
        raise TallyRefusal(25, number)
    if supplier is None:
        return tally._replace(missing=tally.missing + 1, total=tally.total + 1)
    if len(supplier) > LONGEST:
        raise TallyRefusal(23, number)
    counts = dict(tally.entries)
    if supplier not in counts and len(counts) == MOST_SUPPLIERS:
        raise TallyRefusal(24, number)
    counts[supplier] = counts.get(supplier, 0) + 1
    return tally._replace(entries=tuple(sorted(counts.items())), total=tally.total + 1)


def with_file(tally, room, data):
    """The tally with a file's records, or a refusal, which adds nothing of that file."""
    if room < MOST_SUPPLIERS or not tally.good():
        raise Refusal(2)
    for number, record in enumerate(sdfile(Sheet(data)), 1):
        tally = with_record(tally, number, supplier_of(record))
    return tally


def with_files(tally, files):
    """All files, each added whole or not at all; the refusals by the file's place."""
    refused = {}
    for place, data in enumerate(files):
        try:
            tally = with_file(tally, MOST_SUPPLIERS, data)
        except Refusal as refusal:
            refused[place] = refusal
    return tally, refused


def report(tally):
    lines = [*tally.entries, (b"missing", tally.missing), (b"total", tally.total)]
    return b"".join(b"%6d %s\n" % (count, name) for name, count in lines)
