"""Tests of a record copied, of a file walked by a cursor, and of the counter's input in parts."""

import random

from counter import BUFFER, MOST, counter_line, feed
from counter_cases import around_the_buffer
from ctfile import check, next_record, read_record, sdfile
from damage import damaged
from expect import expect
from generate import file_rows, good_drafts, to_bytes
from limit import LIMIT
from lines import Sheet
from samples import MOLFILE, SAMPLE, bare, edit, read, ring, tables
from writer import catalogue_text, copy_record, text_of

EMPTY = [0] * (16 * LIMIT), [0] * (6 * LIMIT)


def copied(kind, data, size, atoms=LIMIT, bonds=LIMIT):
    a, b = tables(atoms, bonds)
    room = bytearray(b"\xa5" * size)
    return copy_record(kind, data, a, b, room), bytes(room), (a, b)


def copies_by_hand():
    _, *rows = read(SAMPLE)
    loose = SAMPLE.replace(b">  <", b"> <").replace(b"\n", b"\r\n") + b"\x00"
    answer, room, left = copied(1, loose, 267)
    expect("a copy", (answer, room, list(left)), (("accepted", 277, 13, 265), SAMPLE + b"\xa5\xa5", rows))
    answer, room, left = copied(0, MOLFILE, 249)
    expect("a molfile's copy", (answer, room, list(left)), (("accepted", 244, 9, 249), MOLFILE + b"$$$$\n", rows))
    answer, room, left = copied(1, SAMPLE, 264)
    expect("20 keeps the tables' rows", (answer, room, list(left)), (("refused", 20, 0, 0), b"\xa5" * 264, rows))
    expect("a molfile's room", copied(0, MOLFILE, 248)[0], ("refused", 20, 0, 0))
    for kind, atoms, number in ((2, 0, 1), (1, LIMIT - 1, 2), (0, LIMIT - 1, 2)):
        expect("1 and 2", copied(kind, b"", 9, atoms), (("refused", number, 0, 0), b"\xa5" * 9, tables(atoms, LIMIT)))
    expect("a refused record before 20", copied(1, edit(drop=12), 0), (("refused", 17, 12, 1), b"", EMPTY))
    expect("18", copied(0, SAMPLE, 999), (("refused", 18, 10, 1), b"\xa5" * 999, EMPTY))
    expect("no bytes", copied(1, b"", 0)[0], ("refused", 19, 1, 1))


def large_molecules():
    """As many atoms and bonds as may be: read, copied, and for the counter too long by its buffer alone."""
    circle = bare(LIMIT, ring(LIMIT))
    answer, atoms, bonds = read(circle)
    expect("a full record", (answer[:3], atoms[-16:-12], bonds[-6:]),
           (("accepted", LIMIT, LIMIT), [0, 0, 0, 6], [LIMIT, 1, 1, 0, 0, 0]))
    text = catalogue_text(circle)
    expect("a full copy", copied(1, circle, len(text)),
           (("accepted", len(circle), circle.count(b"\n"), len(text)), text, (atoms, bonds)))
    expect("a full copy read again", read(text)[1:], (atoms, bonds))
    expect("an atom that is not there", read(circle.replace(b"%3d  1  1" % LIMIT, b"%3d  0  1" % LIMIT))[0],
           ("refused", 8, 4 + 2 * LIMIT, 4))
    twice = ring(LIMIT)[:-1] + [(2, 1)]
    expect("the last pair again", read(bare(LIMIT, twice))[0], ("refused", 11, 4 + 2 * LIMIT, 1))
    long = text.replace(b"M  END\n", b"M  END\n>  <A>\n" + b"v\n" * (BUFFER // 2) + b"\n")
    expect("good and too long", (check(1, long), counter_line(long)), (("accepted", 1), "record 1 too long"))
    line = "record 1 too long" if len(text) > BUFFER else "accepted 1"
    expect("a full record counted", (check(1, text), counter_line(text)), (("accepted", 1), line))


def cursors_by_hand():
    def step(cursor, data=SAMPLE + edit(drop=12), atoms=LIMIT, bonds=LIMIT):
        a, b = tables(atoms, bonds)
        return next_record(cursor, data, a, b), (a, b)
    _, *rows = read(SAMPLE)
    answer, left = step((0, 0, 0))
    expect("the first record", (answer, list(left)), (("record", 2, 1, 0, 265, 13, 17, 244, 260, (265, 13, 1)), rows))
    expect("a line of the file", step((265, 13, 1)), (("refused", 17, 25, 1), EMPTY))
    expect("lines as the cursor says", step((265, 100, 1))[0], ("refused", 17, 112, 1))
    for cursor in ((265, 13, 1), (266, 13, 1), (0, 1, 0), (0, 0, 1), (12, 13, 1), (12, 5, 6), (MOST, MOST, MOST)):
        expect("the end", step(cursor, SAMPLE), (("end",), tables()))
    for cursor in ((0, 0, 0), (9999, 0, 0), (0, 1, 0)):
        expect("2 first", step(cursor, SAMPLE, LIMIT, LIMIT - 1), (("refused", 2, 0, 0), tables(LIMIT, LIMIT - 1)))
    expect("unfinished bytes", step((265, 13, 1), SAMPLE + b"x")[0], ("refused", 19, 14, 1))
    expect("an empty file", step((0, 0, 0), b"")[0], ("end",))


def parts_by_hand():
    for part, ended, room, want in (
            (b"", 1, 9, ("accepted", 7)), (b"", 0, 9, ("more", 7, 90, 0)), (b"", 0, 0, ("too long", 8)),
            (SAMPLE * 2, 1, 530, ("accepted", 9)), (SAMPLE * 2, 0, 530, ("more", 9, 116, 530)),
            (SAMPLE[:-1], 0, 264, ("too long", 8)), (SAMPLE[:-1], 0, 265, ("more", 7, 90, 0)),
            (SAMPLE[:-1], 0, 9, ("too long", 8)), (SAMPLE[:-1], 1, 264, ("refused", 19, 103, 1)),
            (SAMPLE + b"x", 0, 266, ("more", 8, 103, 265)), (SAMPLE + b"x", 1, 266, ("refused", 19, 104, 1)),
            (SAMPLE + edit(drop=12), 0, 9999, ("refused", 17, 115, 1)), (b"$$$$\n", 0, 5, ("refused", 5, 91, 1))):
        expect("a part of %d bytes" % len(part), feed(7, 90, ended, room, part), want)
    for records, lines, part, ended, want in (
            (MOST, MOST, SAMPLE, 1, ("accepted", MOST)), (MOST, 0, b"x", 0, ("too long", MOST)),
            (MOST - 1, MOST - 20, SAMPLE * 2, 0, ("more", MOST, MOST, 530)),
            (0, MOST - 3, edit(drop=12), 0, ("refused", 17, MOST, 1)),
            (0, MOST - 13, edit(drop=12), 1, ("refused", 17, MOST - 1, 1)),
            (0, MOST - 14, SAMPLE, 0, ("more", 1, MOST - 1, 265))):
        expect("sums stop", feed(records, lines, ended, len(part), part), want)


def fed(rng, data, room):
    """The input through a buffer of that room, filled by reads of any length, as the counter's one line."""
    buffer, at, records, lines = b"", 0, 0, 0
    while True:
        got = data[at:at + rng.randrange(1, room - len(buffer) + 1)]
        buffer, at = buffer + got, at + len(got)
        answer = feed(records, lines, not got, room, buffer)
        if answer[0] == "more":
            _, records, lines, used = answer
            buffer = buffer[used:]
        elif answer[0] == "too long":
            # nothing follows a buffer that is just full if the input ends there
            if at < len(data):
                return "record %d too long" % answer[1]
            answer = feed(records, lines, True, room, buffer)
        if answer[0] in ("accepted", "refused"):
            return ("accepted %d" if answer[0] == "accepted" else "refused %d line %d column %d") % answer[1:]


def parts_make_the_counter():
    """Any parts of an input lead to the counter's line."""
    rng = random.Random(31)
    for k in range(200):
        data = damaged(rng, 1)
        expect("small parts %d" % k, fed(rng, data, BUFFER), counter_line(data))
    for k, data in enumerate(around_the_buffer(rng)):
        expect("around the buffer %d" % k, fed(rng, data, BUFFER), counter_line(data))


def cursor_makes_the_check():
    """Step by step, a cursor meets every record of a good file, and the refusal of a bad one."""
    rng = random.Random(32)
    for k in range(300):
        data = damaged(rng, 1) if k % 3 else to_bytes(rng, file_rows(rng, good_drafts(rng, 1), 1))
        cursor, seen, (atoms, bonds) = (0, 0, 0), 0, tables()
        answer = next_record(cursor, data, atoms, bonds)
        while answer[0] == "record":
            again, *rows = read(data[cursor[0]:])
            expect("rows %d" % k, (again[1:5], rows), (answer[1:5], [atoms, bonds]))
            cursor, seen = answer[-1], seen + 1
            answer = next_record(cursor, data, atoms, bonds)
        expect("records %d" % k, cursor[2], seen)
        expect("walk %d" % k, ("accepted", seen) if answer == ("end",) else answer, check(1, data))


def copies_make_the_catalogue():
    """Copies of the records, one after another, are the catalogue; tables are those of the record reader."""
    rng = random.Random(33)
    for k in range(150):
        data, at, text = to_bytes(rng, file_rows(rng, good_drafts(rng, 1), 1)), 0, b""
        for record in sdfile(Sheet(data)):
            answer, room, left = copied(1, data[at:], len(text_of(record)))
            a, b = tables()
            read_record(1, data[at:], a, b)
            expect("copy %d" % k, (answer[1:3], left), ((record.length, record.lines_used), (a, b)))
            at, text = at + answer[1], text + room
        expect("copies %d" % k, (at, text), (len(data), catalogue_text(data)))


ALL = [copies_by_hand, large_molecules, cursors_by_hand, parts_by_hand, parts_make_the_counter, cursor_makes_the_check,
       copies_make_the_catalogue]
