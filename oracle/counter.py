"""The counter program's one line for an SDfile on standard input, and one step of its buffer."""

import sys

from ctfile import SDFILE, record_at
from lines import Refusal, Sheet

BUFFER = 65536
MOST = 2 ** 64 - 1             # where sums stop


def counter_line(data):
    """Record after record, each seen only through a buffer from its start."""
    start = records = lines_before = 0
    while start < len(data):
        sheet = Sheet(data[start:start + BUFFER])
        try:
            record = record_at(sheet, 0, SDFILE)
        except Refusal as refusal:
            # 19 means that no line in the buffer is refused and no `$$$$` line ends there.
            if refusal.number == 19 and len(data) - start > BUFFER:
                return "record %d too long" % (records + 1)
            return "refused %d line %d column %d" % (
                refusal.number, lines_before + refusal.line, refusal.column)
        start += record.length
        lines_before += record.lines_used
        records += 1
    return "accepted %d" % records


def feed(records, lines, ended, room, part):
    """A part of the input that begins where a record begins, in a buffer of that room; `ended` if
    nothing follows it. Records and lines are those before it. ("accepted", records) or the refusal
    where the verdict is found, ("too long", number of the record), or ("more", records, lines,
    bytes done with)."""
    sheet, first, lines_before = Sheet(part), 0, lines
    try:
        while sheet.starts_at(first) < len(part):
            first += record_at(sheet, first, SDFILE).lines_used
            records, lines = min(records + 1, MOST), min(lines_before + first, MOST)
    except Refusal as refusal:
        if refusal.number != 19 or ended:
            return ("refused", refusal.number, min(lines_before + refusal.line, MOST), refusal.column)
    if ended:
        return ("accepted", records)
    used = sheet.starts_at(first)
    if used or len(part) < room:
        return ("more", records, lines, used)
    return ("too long", min(records + 1, MOST))


if __name__ == "__main__":
    print(counter_line(sys.stdin.buffer.read()))
