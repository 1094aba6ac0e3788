"""Cases for the library, with the lines that its driver has to print.

    python3 vectors.py SEED N OUT [OPERATION..]     writes OUT.cases and OUT.expected, of these operations or of all
    python3 vectors.py --check OUT..                answers each OUT.cases again and compares
    python3 vectors.py --stored DIRECTORY           writes all that tests/cases holds

The same seed gives the same bytes. The format is in docs/VECTORS.md.
"""

import os
import random
import re
import sys
from collections import Counter

from cases import (MOST_ROOM, OPERATIONS, Reader, answers, catalogue_case, changes_case, check_case, copy_case, feed_case, fetch_case,
                   formula_case, items_case, mend_case, next_case, pieces_case, read_case, replay_case, tally_case,
                   write_case)
from changed import any_pair, fixed_pairs
from counter import BUFFER, MOST
from ctfile import SDFILE, one_record, record_at
from damage import AIMED_NUMBERS, aimed, blind, damaged, spoiled_bond, surplus, truncated
from deliveries import compare
from formulas import any_record, fixed_records
from generate import (NAMES, all_symbols, draft_record, file_rows, good_drafts, plain_bytes,
                      record_rows, to_bytes)
from graphs import any_graph, fixed_graphs
from limit import LIMIT
from lines import Refusal, Sheet
from logs import any_log, fixed_logs
from mending import mended
from samples import MOLFILE, SAMPLE, bare, coded, edit, ring
from scanner import replay
from small import small_refusals, small_surplus
from spelled import spelled_lines
from spoiled import any_spoiled, fixed_spoiled
from suppliers import FULL, any_tally, fixed_tallies
from writer import catalogue_text, text_of

MOST_STORED = 4_000_000     # bytes of all stored files together
MOST_ROWS = LIMIT + 5       # that a table is lent room for
SHORT_ROOMS = [(LIMIT - 1, LIMIT), (LIMIT, LIMIT - 1), (LIMIT, 0), (0, LIMIT), (0, 0)]      # 2
LEAST_OF_EACH = 10          # stored cases for every refusal number that an operation can give
BASE = ("check", "read", "fetch", "write", "catalogue")
STORED = {                  # seed, cases, operations
    "base": (1, 2700, BASE), "copy": (1, 500, ("copy",)), "feed": (1, 420, ("feed",)),
    "next": (1, 400, ("next",)), "replay": (11, 700, ("replay",)),
    "formula": (1, 430, ("formula",)), "pieces": (1, 360, ("pieces",)),
    "mend": (1, 700, ("mend",)), "tally": (1, 500, ("tally",)),
    "changes": (1, 340, ("changes",)), "items": (1, 330, ("items",))}
LINES = {*range(3, 18), 19}  # refusals that a record of an SDfile can meet
NUMBERS = {
    "check": {1, 18} | LINES, "read": {1, 2, 18, 35} | LINES, "fetch": {22} | LINES,
    "write": {2, 3, 4, 5, 16, 17, 18, 19, 20, 21}, "catalogue": {2, 20} | LINES, "copy": {1, 2, 18, 20} | LINES,
    "feed": LINES, "next": {2} | LINES, "replay": set(range(26, 31)),
    "formula": {2, 22, 31, 32, 33, 34} | LINES, "pieces": {1, 2, 18} | LINES, "mend": {38, 39} | LINES, "tally": {2, 23, 24, 25} | LINES, "changes": {2, 36, 37, 39},
    "items": {3, 4, 16, 17, 19}}
SWEEP_LINES = {
    b"counts": b"  2  1  0  0  0  0  0  0  0  0999 V2000",
    b"atom": b"    1.2500   -0.8250    0.0000 O   0  5  0  0  0  0  0  0  0  0  0  0",
    b"bond": b"  1  2  1  0  0  0  0",
    b"property": b"M  CHG  2   2  -1   1   1",
    b"end": b"M  END",
    b"header": b">  <LOT>",
    b"value": b"00417",
    b"close": b"$$$$"}


def sweep_file(place, text):
    """A small record with one of its lines given."""
    lines = dict(SWEEP_LINES)
    lines[place] = text
    order = [b"t", b"", b""] + [lines[b"counts"], SWEEP_LINES[b"atom"]] + [
        lines[p] for p in (b"atom", b"bond", b"property", b"end", b"header", b"value")] + [
        b"", lines[b"close"], b""]
    return b"\n".join(order)


def sweeps(rng, count):
    """Every column of every line written over with one byte; a sample of these of that size."""
    places = [(place, column, byte) for place in SWEEP_LINES for column in range(1, 82)
              for byte in (b"#", b"9", b"-", b"+", b" ", b"\x1f")]
    for place, column, byte in rng.sample(places, min(count, len(places))):
        text = SWEEP_LINES[place].ljust(column)
        yield check_case(1, sweep_file(place, text[:column - 1] + byte + text[column:]))


def spelled_cases(rng, count):
    """Every integer field with digits at each place of it, with signs, and malformed: a sample of that size, read, and
    smaller ones for the operations that have files of their own."""
    files = [sweep_file(place, line) for place, line in spelled_lines(SWEEP_LINES)]
    for data in rng.sample(files, min(count, len(files))):
        yield read_case(1, LIMIT, LIMIT, data)
    for data in rng.sample(files, min(count // 2, len(files))):
        yield copy_case(1, LIMIT, LIMIT, 400, data)
        yield feed_case(7, 90, 1, len(data), data)
        yield next_case((0, 0, 0), LIMIT, LIMIT, data)


def aimed_file(rng, kind):
    """Aimed damage; often every number has the same chance, rare ones too."""
    numbers = [k for k in AIMED_NUMBERS if kind == 1 or k not in (16, 17)]
    if kind == 0 and rng.random() < 0.1:
        return surplus(rng)
    return aimed(rng, kind, rng.choice(numbers) if rng.random() < 0.7 else None)


def any_file(rng, kind):
    """Good or damaged bytes for a check, a reading or a fetch."""
    choice = rng.random()
    if choice < 0.25:
        return to_bytes(rng, file_rows(rng, good_drafts(rng, kind), kind))
    if choice < 0.7:
        return to_bytes(rng, aimed_file(rng, kind).rows)
    return truncated(rng, kind) if choice < 0.8 else damaged(rng, kind)


def table_rooms(rng):
    """Mostly enough; at times more, so that memory beyond is seen, or too little."""
    if rng.random() < 0.1:
        return rng.choice([(LIMIT - 1, LIMIT), (LIMIT, LIMIT - 1), (0, LIMIT), (LIMIT, 0), (LIMIT - 1, MOST_ROWS),
                           (1, 1), (0, 0)])
    return rng.choice([LIMIT, LIMIT, LIMIT + 1, MOST_ROWS]), rng.choice([LIMIT, LIMIT, LIMIT + 2, MOST_ROWS])


def any_kind(rng):
    return rng.choice([2, 3, 7, 48, 255]) if rng.random() < 0.03 else rng.randrange(2)


def make_check(rng):
    kind = any_kind(rng)
    return check_case(kind, any_file(rng, min(kind, 1)))


def make_read(rng):
    kind = any_kind(rng)
    data = to_bytes(rng, spoiled_bond(rng, min(kind, 1)).rows) if rng.random() < 0.15 else any_file(rng, min(kind, 1))
    if kind == 1 and rng.random() < 0.3:
        data += rng.choice([b"\x00", b"x" * 90, b"$$$$\n", b"\r"])   # after the record
    rows = rng.choice([0, 1, LIMIT - 1, MOST_ROWS]) if rng.random() < 0.1 else LIMIT
    return read_case(kind, *table_rooms(rng), data, rows)


def make_fetch(rng):
    draft = draft_record(rng, rng.choice([0, 1, 2]), items=rng.choice([0, 1, 2, 3, 3]))
    if len(draft.items) > 1 and rng.random() < 0.3:     # the same name again, with other values
        draft.items[-1] = (draft.items[0][0], [b"second", b"values"])
    data = to_bytes(rng, record_rows(rng, draft, 1)) + rng.choice([b"", b"\xff", b"t\n"])
    name = rng.choice([n for n, _ in draft.items] * 6 + NAMES[:3])
    choice = rng.random()
    if choice < 0.15:
        name = rng.choice([b"", name[:-1], name + b" ", name.lower(), b"n" * 31, b"\n", b"<A>"])
    elif choice < 0.3:
        data = blind(rng, data)
    elif choice < 0.4:
        data = to_bytes(rng, aimed_file(rng, 1).rows)
    return fetch_case(name, data)


def make_items(rng):
    """The items of a record, from where they start, from a line of it, or from any byte; at times damaged."""
    draft = draft_record(rng, 0, items=rng.choice([0, 1, 2, 3, 5]))
    data = to_bytes(rng, record_rows(rng, draft, 1))
    sheet, choice = Sheet(data), rng.random()
    at = record_at(sheet, 0, SDFILE).items_start
    data = data[at:] if choice < 0.5 else data
    at = 0 if choice < 0.5 else at
    data += rng.choice([b"", b"", b"\xff", b"t\n"])
    choice = rng.random()
    if choice < 0.1:
        at = rng.randrange(len(data) + 3)
    elif choice < 0.2:
        at = rng.choice([line.start for line in sheet.lines])
    elif choice < 0.6:
        data = data[:at] + blind(rng, data[at:])
    elif choice < 0.7:
        data = data[:rng.randrange(at, len(data) + 1)]
    return items_case(at, data)


def items_cases():
    """Every refusal at the lines of an item, and places that no walk comes to."""
    for _, line, _, data in small_refusals():
        if line > 11:
            yield items_case(Sheet(data).starts_at(11), data)
    for byte in (b"\t", b"\r", b"\x7f"):
        for data in (b">  <A%s>\n\n", b">  <A>\n v%s\n\n", b">  <A>\nv\n%s \n", b"$$$$ %s \n"):
            yield items_case(3, b"xx\n" + data % byte)
    good = b"> <A>\n\n>   < >  \r\n 1\r\n\r\n>  <LOT>\n00417\n\n 2\n   \n$$$$ \n"
    for at in (*range(len(good) + 2), MOST):
        yield items_case(at, good)
    for data in (b"$$$$", b"$$$$\n", b"> <A>", b"> <A>\n", b"> <A>\nv", b"> <A>\nv\n", b"> <A>\nv\n\n", b"> <A>\n" + b" " * 200 + b"\n$$$$\n"):
        yield items_case(0, data)


def spoil_tables(rng, truth):
    """n, m, chiral, atoms and bonds with one thing that isn't writable."""
    _, n, m, chiral, atoms, bonds, _ = truth
    atoms, bonds = [list(a) for a in atoms], [list(b) for b in bonds]
    most = n * (n - 1) // 2
    choice = rng.randrange(8)
    if choice == 0:
        n = rng.choice([LIMIT + 1, LIMIT + 2, 1000, 65536, 2147483647])
    elif choice == 1:
        m = rng.choice([most + 1, LIMIT + 1, 1000, 2147483647])
    elif choice == 2:
        chiral = rng.choice([2, 3, 255, 2147483647])
    elif choice == 3 and m:
        bond = rng.choice(bonds)
        place, values = rng.choice([(0, [0, n + 1, -1]), (1, [0, n + 1, 2147483647]), (2, [0, 9, -1]),
                                    (3, [2, 5, 7, -1]), (4, [3, -1]), (5, [3, -2, 6, 7, 10, 11, 14])])
        bond[place] = rng.choice(values)
    elif choice == 4 and m:
        bond = rng.choice(bonds)
        bond[1] = bond[0]
    elif choice == 5 and m > 1:
        a, b = rng.sample(range(m), 2)
        bonds[a][:2] = rng.sample(bonds[b][:2], 2)
    elif choice == 6 and n:
        atom = rng.choice(atoms)
        atom[4], rng.choice(atoms)[7] = rng.choice([-3, 1, 4]), rng.choice([1, 999])
    elif n:
        wrong = [[1_000_000_000, -100_000_000, 2147483647, -2147483648]] * 3 + [
            [0, 123, -1], [-4, 5], [-16, 16], [-1, 4], [-1, 1000], [-1, 4], [-1, 6], [-1, 2],
            [-1, 16], [-1, 2], [-1, n + 1], [-1, 3], [-1, 2]]
        place = rng.randrange(16)
        rng.choice(atoms)[place] = rng.choice(wrong[place])
    else:
        n = LIMIT + 1
    return n, m, chiral, atoms, bonds


def spoil_header(rng, header):
    choice = rng.randrange(4)
    if choice == 0:
        return header + rng.choice([b"x", b"\n", b" " * 81 + b"\n", b"\x00\n", b"$$$$\n"])
    if choice == 1:
        return header[:rng.randrange(max(1, len(header)))]
    if choice == 2:
        return rng.choice([b"$$$$", b"$MDL", b"a$RXN", b"$RDFILE 1"]) + header
    return blind(rng, header)


def spoil_items(rng, items):
    choice = rng.randrange(4)
    if choice == 0:
        return items + rng.choice([b"$$$$\n", b"x", b"\n", b">  <A>\n", b">  <A>\n$$$$\n", b"> <A>",
                                   b">  <A>\n> <B>\n", b">  <A>\nv" + b"w" * 200 + b"\n"])
    return blind(rng, items) if choice < 3 else items[:max(0, len(items) - rng.randrange(1, 9))]


def make_write(rng):
    """A record to write, with no, one or two things wrong."""
    draft = draft_record(rng)
    truth = draft.truth()
    rows = record_rows(rng, draft, 1)
    places = [row.place for row in rows]
    items = to_bytes(rng, rows[places.index("end") + 1:-1])
    header, length = to_bytes(rng, rows[:3]), len(catalogue_text(plain_bytes(rows)))
    n, m, chiral, atoms, bonds = truth[1:6]
    room, rooms = length + rng.choice([0, 0, 1, 40]), (rng.choice([LIMIT, LIMIT, LIMIT + 4]), LIMIT)
    for _ in range(rng.choice([0, 0, 1, 1, 1, 2])):
        wrong = rng.randrange(9)
        if wrong < 3:
            n, m, chiral, atoms, bonds = spoil_tables(rng, truth)
        elif wrong < 5:
            header = spoil_header(rng, header)
        elif wrong < 7:
            items = spoil_items(rng, items)
        elif wrong == 7:
            room = rng.choice([length - 1, length - 2, 0, rng.randrange(length)])
        else:
            rooms = rng.choice([(LIMIT - 1, LIMIT), (LIMIT, LIMIT - 1), (64, MOST_ROWS)])
    return write_case(n, m, chiral, rooms, atoms, bonds, header, items, room)


def make_catalogue(rng):
    choice, length = rng.random(), 0
    if choice < 0.5:
        data = to_bytes(rng, file_rows(rng, good_drafts(rng, 1), 1))
        length = len(catalogue_text(data))
    else:
        data = any_file(rng, 1)
    room = length + rng.choice([0, 0, 3, -1, -1, -40, 300])
    return catalogue_case(*table_rooms(rng), max(0, room), data)


def even_file(rng, kind):
    """Good or damaged bytes in which every refusal number has the same chance."""
    choice = rng.random()
    if choice < 0.2:
        return to_bytes(rng, file_rows(rng, good_drafts(rng, kind), kind))
    if choice < 0.35:
        return damaged(rng, kind) if choice < 0.27 else truncated(rng, kind)
    numbers = [k for k in AIMED_NUMBERS if k not in (16, 17)] + [18, 18] if kind == 0 else AIMED_NUMBERS
    number = rng.choice(numbers)
    return to_bytes(rng, (surplus(rng) if number == 18 else aimed(rng, kind, number)).rows)


def cursors(data):
    """Where records of a file begin: bytes, lines and records before them."""
    sheet, first, records = Sheet(data), 0, 0
    try:
        while True:
            yield sheet.starts_at(first), first, records
            first, records = first + record_at(sheet, first, SDFILE).lines_used, records + 1
    except Refusal:
        pass


def make_copy(rng):
    """A record of either kind, often into room that is just enough or just too short."""
    kind, length = any_kind(rng), rng.choice([0, 90, 400])
    data = even_file(rng, min(kind, 1))
    if kind == 1:
        data = data[list(cursors(data))[-1][0]:] if rng.random() < 0.7 else data
        data += rng.choice([b"", b"", b"", b"\x00", b"x" * 90, b"$$$$\n", b"\r"])
    try:
        length = len(text_of(one_record(min(kind, 1), data)))
    except Refusal:
        pass
    return copy_case(kind, *table_rooms(rng), max(0, length + rng.choice([0, 0, 0, 7, -1, -1, -60, 300])), data)


def before(rng):
    """A count of records or lines that stand before a part; near the greatest, sums stop there."""
    return rng.choice([0, 0, 0, 1, 12, 999, 2 ** 32 - 1, 2 ** 63, MOST - 30, MOST - 1, MOST])


def make_feed(rng):
    """A part of an SDfile that fills its buffer or does not, mostly cut where no record ends."""
    data = even_file(rng, 1)
    if rng.random() < 0.3:
        data = to_bytes(rng, record_rows(rng, draft_record(rng, 1, 0), 1)) + data
    if rng.random() < 0.3:
        data = data[:rng.randrange(len(data) + 1)]
    room = rng.choice([len(data)] * 3 + [len(data) + 1, max(0, len(data) - 1), 2 * len(data), 0, BUFFER])
    return feed_case(before(rng), before(rng), rng.randrange(2), room, data)


def odd_cursor(rng, size):
    """A cursor that need not be one of the file, nor of any."""
    at = rng.choice([rng.randrange(size + 1), size, size + 1, 0, 1, MOST])
    lines = rng.choice([at, at // 9, at + 1, 0, MOST])
    records = rng.choice([lines, lines // 9, lines + 1, 0, MOST])
    return min(at, MOST), min(lines, MOST), min(records, MOST)


def make_next(rng):
    data = even_file(rng, 1)
    if rng.random() < 0.3:
        data = to_bytes(rng, record_rows(rng, draft_record(rng, 1, 0), 1)) + data
    places = list(cursors(data))
    cursor = places[-1] if rng.random() < 0.8 else rng.choice(places)
    if rng.random() < 0.15:
        cursor = odd_cursor(rng, len(data))
    return next_case(cursor, *table_rooms(rng), data)


def make_replay(rng):
    return replay_case(any_log(rng))


def make_formula(rng):
    return formula_case(*table_rooms(rng), any_record(rng))


def formula_cases():
    """Formulas one by one, and the record's own refusals before them."""
    for data in fixed_records():
        yield formula_case(LIMIT, LIMIT, data)
    for _, _, _, data in small_refusals():
        yield formula_case(LIMIT, LIMIT, data)
    for rooms in SHORT_ROOMS:
        for data in (b"", SAMPLE):
            yield formula_case(*rooms, data)


def make_pieces(rng):
    kind = any_kind(rng)
    return pieces_case(kind, *table_rooms(rng), any_graph(rng, min(kind, 1)))


def pieces_cases():
    """Pieces of many shapes, and the refusals before them."""
    for n, pairs in fixed_graphs():
        yield pieces_case(1, LIMIT, LIMIT, bare(n, pairs))
    for _, _, _, data in small_refusals():
        yield pieces_case(1, LIMIT, LIMIT, data)
    for _, _, _, data in small_surplus():
        yield pieces_case(0, LIMIT, LIMIT, data)
    for rooms in SHORT_ROOMS:
        for data in (b"", SAMPLE):
            yield pieces_case(1, *rooms, data)
    for kind in (2, 3, 7, 48, 255):
        yield pieces_case(kind, LIMIT, LIMIT, SAMPLE)
        yield pieces_case(kind, 0, 0, b"")


def make_mend(rng, data=None):
    """A file to be mended, at times with room or list just too short, or with more than enough."""
    data = any_spoiled(rng) if data is None else data
    text, repairs = mended(data)
    room, list_room = len(text), len(repairs)
    choice = rng.random()
    if choice < 0.2:
        room = max(0, room + rng.choice([-1, -1, -20, -room]))
    elif choice < 0.4:
        list_room = max(0, list_room + rng.choice([-1, -1, -list_room]))
    return mend_case(room + rng.choice([0, 0, 7]) * (choice > 0.2), list_room + rng.choice([0, 0, 3]) * (choice > 0.4), data)


def mend_cases(rng):
    """Every repair by itself and with others, the short records of each refusal, and one repair more than the list holds."""
    for data in fixed_spoiled():
        text, repairs = mended(data)
        yield mend_case(len(text) + 3, len(repairs) + 1, data)
    for _, _, _, data in small_refusals():
        yield make_mend(rng, data)
    for data in (edit(drop=12)[:-1], SAMPLE + b"\n\n"):
        for room in (0, 264, 265, 266):
            for list_room in (0, 1, 2, 3):
                yield mend_case(room, list_room, data)


def make_tally(rng):
    return tally_case(*any_tally(rng))


def tally_cases():
    """Lists and files one by one, and the file's own refusals."""
    for tally, room, data in fixed_tallies():
        yield tally_case(tally, room, data)
    for _, _, _, data in small_refusals():
        yield tally_case(FULL, 64, data)


def make_changes(rng, pair=None):
    """Two deliveries, the list with room enough, or for one difference too few."""
    old, new = pair or any_pair(rng)
    try:
        count = len(compare(old, new))
    except Refusal:
        count = 2
    rooms = [LIMIT + rng.choice([0, 0, 0, 1, 5]) for _ in range(4)]
    if rng.random() < 0.05:
        rooms[rng.randrange(4)] = rng.choice([0, LIMIT - 1])
    return changes_case(rooms, max(0, count + rng.choice([0, 0, 0, 0, 1, 1, -1])), old, new)


def changes_cases(rng):
    """Pairs one by one, tables short by one, lists just long enough and one too short."""
    for pair in fixed_pairs():
        yield make_changes(rng, pair)
    for k in range(4):
        for data in (SAMPLE, b"x"):
            rooms = [LIMIT] * 4
            rooms[k] -= 1
            yield changes_case(rooms, 3, data, SAMPLE)
    for room in range(5):
        yield changes_case([LIMIT] * 4, room, SAMPLE * 2, edit(1, b"x") + edit(11, b"417"))
        yield changes_case([LIMIT] * 4, room, SAMPLE * 3, b"")
    circle = bare(LIMIT, ring(LIMIT))
    yield changes_case([LIMIT] * 4, 2, circle, circle.replace(b"  1  2  1\n", b"  2  1  1\n", 1))


def small_cases():
    """Short files for each refusal, where no chance brings every number often enough."""
    for _, _, _, data in small_refusals():
        yield copy_case(1, LIMIT, LIMIT, 300, data)
        yield feed_case(7, 90, 1, len(data), data)
        yield next_case((0, 0, 0), LIMIT, LIMIT, data)
    for _, _, _, data in small_surplus():
        yield copy_case(0, LIMIT, LIMIT, 300, data)
    for kind in (2, 3, 7, 48, 255):
        yield copy_case(kind, LIMIT, LIMIT, 9, b"")
        yield copy_case(kind, 0, 0, 300, SAMPLE)
    for rooms in SHORT_ROOMS:
        for data in (b"", SAMPLE):
            yield copy_case(1, *rooms, 300, data)
            yield next_case((0, 0, 0), *rooms, data)


def sample_cases():
    """The sample of the rules and small edits of it, where room, part and cursor lie on either side of a limit."""
    for room in (0, 264, 265, 266):
        yield copy_case(1, LIMIT, LIMIT + 1, room, SAMPLE + b"x")
    for room in (248, 249):
        yield copy_case(0, LIMIT + 1, LIMIT, room, MOLFILE)
    yield copy_case(0, LIMIT, LIMIT, 999, SAMPLE)
    yield copy_case(2, 0, 0, 0, b"")
    for part in (b"", b"x", b"\n", SAMPLE, SAMPLE * 2, SAMPLE[:-1], SAMPLE * 2 + b"x", SAMPLE + edit(drop=12)):
        for ended in (0, 1):
            for room in (len(part), len(part) + 1):
                yield feed_case(7, 90, ended, room, part)
                yield feed_case(MOST, MOST - 1, ended, room, part)
    for cursor in ((0, 0, 0), (265, 13, 1), (530, 26, 2), (265, 265, 265), (265, 266, 1), (265, 13, 14), (531, 26, 2),
                   (12, 12, 12), (12, 13, 12), (529, 25, 1)):
        yield next_case(cursor, LIMIT, LIMIT, SAMPLE * 2)
        yield next_case(cursor, LIMIT, LIMIT - 1, SAMPLE + edit(drop=12))
        yield next_case(cursor, LIMIT + 1, LIMIT + 2, SAMPLE + edit(drop=12))
    for log in fixed_logs():
        yield replay_case(log)


def coded_cases():
    """Every charge code beside lines of charges, of radicals, of both and of neither; a line of zeros is one too."""
    charge, radical, isotope = b"M  CHG  1   2   1", b"M  RAD  1   3   1", b"M  ISO  1   1  13"
    for lines in ([], [isotope], [charge], [radical], [radical, charge], [isotope, radical],
                  [b"M  CHG  1   1   0"], [b"M  RAD  1   1   0"]):
        data = coded(*lines)
        yield read_case(1, LIMIT, LIMIT, data)
        yield catalogue_case(LIMIT, LIMIT, 999, data)
        yield copy_case(1, LIMIT, LIMIT, 999, data)
        yield next_case((0, 0, 0), LIMIT, LIMIT, data)


def repeat_cases():
    """Six bonds over four atoms: every one of them repeated by every later one, the record cut after each
    line, and every other refusal on the fifth bond's line or after the last."""
    pairs = [(1, 2), (3, 4), (2, 3), (4, 1), (1, 3), (2, 4)]
    for later in range(1, 6):
        for earlier in range(later):
            again = pairs[earlier][::1 if (later + earlier) % 2 else -1]
            yield read_case(1, LIMIT, LIMIT, bare(4, pairs[:later] + [again] + pairs[later + 1:]))
    good = bare(4, pairs)
    lines = good.splitlines(keepends=True)
    for count in range(len(lines) + 1):
        yield read_case(1, LIMIT, LIMIT, b"".join(lines[:count]))
    for kind in (0, 1):             # 18 in a molfile
        yield read_case(kind, LIMIT, LIMIT, good)
    for line in (b" " * 81, b"M  END\t", b"M  END x", b"M END", b"M  CHG  x", b"M  CHG  9", b"M  CHG  2   1   1   1   1",
                 b"M  END\n", b"M  END\n>  <A>"):
        yield read_case(1, LIMIT, LIMIT, good.replace(b"M  END", line))
    for line in (b" " * 81, b"\xff", b"  1  x", b"  1  5", b"  3  3  1", b"  1  3  1".ljust(40) + b"x"):
        yield read_case(1, LIMIT, LIMIT, good.replace(b"  1  3  1", line))


def written(atoms, pairs, rooms=(LIMIT, LIMIT)):
    """Carbons and single bonds to be written."""
    rows = [(0, 0, 0, 6) + (0,) * 12] * atoms, [(a, b, 1, 0, 0, 0) for a, b in pairs]
    return write_case(atoms, len(pairs), 0, rooms, *rows, b"\n\n\n", b"", MOST_ROOM)


def full_cases(rng):
    """As many atoms and bonds as may be, and one more; a pair that comes again last."""
    circle = bare(LIMIT, ring(LIMIT))
    yield catalogue_case(LIMIT + 1, LIMIT + 1, len(catalogue_text(circle)), circle)
    yield written(LIMIT, ring(LIMIT))
    yield written(LIMIT + 1, [], (MOST_ROWS, LIMIT))
    atoms = next(n for n in range(LIMIT) if n * (n - 1) // 2 > LIMIT)
    pairs = rng.sample([(a, b) for a in range(1, atoms + 1) for b in range(1, a)], LIMIT + 1)
    yield written(atoms, pairs, (LIMIT, MOST_ROWS))
    again = pairs[:LIMIT - 1] + [pairs[LIMIT // 2][::-1]]
    yield written(atoms, again)
    yield read_case(1, LIMIT, LIMIT, bare(atoms, again))
    yield read_case(1, LIMIT, LIMIT, bare(atoms, pairs[:LIMIT]))


def fixed_cases(rng):
    """Large and small extremes that chance would not bring."""
    yield check_case(0, b"")
    yield check_case(1, b"")
    yield read_case(1, LIMIT, LIMIT, b"")
    yield read_case(0, LIMIT, LIMIT, b"")
    yield catalogue_case(LIMIT, LIMIT, 0, b"")
    yield fetch_case(b"", b"")
    yield read_case(1, LIMIT, LIMIT, plain_bytes(record_rows(rng, draft_record(rng, LIMIT, LIMIT, 1), 1)))
    yield read_case(1, LIMIT, LIMIT, plain_bytes(record_rows(rng, all_symbols(rng), 1)))
    yield from full_cases(rng)
    many = plain_bytes(file_rows(rng, [draft_record(rng, 1, 0, 0) for _ in range(60)], 1))
    yield check_case(1, many)
    yield catalogue_case(LIMIT, LIMIT, len(catalogue_text(many)) + 9, many)


def operation_of(case):
    return case[:case.index(b" ")].decode()


MAKERS = [make_check] * 35 + [make_read] * 25 + [make_fetch] * 10 + [make_write] * 22 + [
    make_catalogue] * 8 + [make_copy] * 15 + [make_feed] * 15 + [make_next] * 12 + [make_replay] * 15 + [
    make_formula] * 12 + [make_pieces] * 12 + [make_mend] * 15 + [make_tally] * 12 + [
    make_changes] * 12 + [make_items] * 12


def case_list(seed, count, operations):
    rng = random.Random(seed)
    cases = list(fixed_cases(rng)) + list(sweeps(rng, count // 6)) + list(spelled_cases(rng, count // 6))
    cases += [*sample_cases(), *coded_cases(), *repeat_cases(), *formula_cases(), *pieces_cases(), *mend_cases(rng), *tally_cases(), *changes_cases(rng),
              *small_cases(), *items_cases()]
    cases = [case for case in cases if operation_of(case) in operations]
    makers = [make for make in MAKERS if make.__name__[5:] in operations]
    rng = random.Random(seed)           # anew, so that what stands before does not change what is drawn
    while len(cases) < count:
        cases.append(rng.choice(makers)(rng))
    return cases[:count]


def make_cases(seed, count, operations=tuple(OPERATIONS)):
    return b"".join(case_list(seed, count, operations))


def skipped(case):
    """The refusals that skip an event of a log: its line does not tell them."""
    reader = Reader(case)
    word, *sizes = reader.line()
    notes = replay(reader.block(int(sizes[0]))).notes if word == "replay" else ()
    return {note.number for note in notes} - {0}


def counted(cases, expected):
    """In how many cases each refusal number comes, and at how many different places."""
    times, spots = Counter(), set()
    for case, line in zip(cases, expected.splitlines()):
        found = re.findall(r"refused (\d+) (?:line|event) (\d+)(?: column (\d+))?", line)
        times.update({int(number) for number, *_ in found} | skipped(case))
        spots.update(found)
    places = Counter(int(number) for number, *_ in spots)
    return {number: (times[number], places[number]) for number in sorted(times)}


def write_files(seed, count, out, operations):
    """Both files; their size, and the refusals that come in too few cases."""
    cases = case_list(seed, count, operations)
    data = b"".join(cases)
    expected = answers(data)
    with open(out + ".cases", "wb") as file:
        file.write(data)
    with open(out + ".expected", "w") as file:
        file.write(expected)
    counts, size = counted(cases, expected), len(data) + len(expected)
    print("%s: %d cases, %d bytes" % (out, expected.count("\n"), size))
    for number, (times, places) in counts.items():
        print("refusal %2d: %4d cases, %3d places" % (number, times, places))
    wanted = set().union(*(NUMBERS[operation] for operation in operations))
    return size, [number for number in sorted(wanted) if counts.get(number, (0, 0))[0] < LEAST_OF_EACH]


def write_stored(directory):
    """All stored files; each refusal that can come has to come often enough, and the whole must stay small."""
    total, good = 0, True
    for name, (seed, count, operations) in STORED.items():
        size, few = write_files(seed, count, os.path.join(directory, name), operations)
        total += size
        if few:
            good = False
            print("%s: fewer than %d cases of %s" % (name, LEAST_OF_EACH, ", ".join(map(str, few))))
    print("%d bytes stored" % total)
    return 0 if good and total < MOST_STORED else 1


def check_again(outs):
    for out in outs:
        with open(out + ".cases", "rb") as cases, open(out + ".expected") as expected:
            same = answers(cases.read()) == expected.read()
        print("%s: %s" % (out, "same" if same else "different"))
        if not same:
            return 1
    return 0


if __name__ == "__main__":
    if len(sys.argv) > 2 and sys.argv[1] == "--check":
        sys.exit(check_again(sys.argv[2:]))
    if len(sys.argv) == 3 and sys.argv[1] == "--stored":
        sys.exit(write_stored(sys.argv[2]))
    if len(sys.argv) < 4:
        sys.exit(__doc__)
    write_files(int(sys.argv[1]), int(sys.argv[2]), sys.argv[3], sys.argv[4:] or tuple(OPERATIONS))
