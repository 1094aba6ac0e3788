"""Tests of bond rows: by hand, and that every answer and refusal but the count is what it was without them."""

import random

from bond_rows import ROWS, WORDS, read_with_rows, row_words
from cases import answer_read, digest, Reader, head, block
from ctfile import read_record, pairs_compared
from damage import damaged, spoiled_bond
from expect import expect
from generate import to_bytes
from limit import LIMIT
from samples import SAMPLE, bare, edit, ring, tables

FILL = 99
PAIRS = [(1, 2), (3, 4), (2, 3), (4, 1), (1, 3), (2, 4)]


def told(data, kind=1, atoms=LIMIT, room=ROWS + 3):
    """The answer, the rows asked, the tables and the rows."""
    lent, rows = tables(atoms), [FILL] * room
    answer, asked = read_with_rows(kind, data, *lent, rows)
    return answer, asked, lent, rows


def bonded(rows, a, b):
    return rows[(a - 1) * WORDS + (b - 1) // 64] >> (b - 1) % 64 & 1


def rows_by_hand():
    for pair in ((1, 2), (64, 65), (65, 1), (63, 64), (LIMIT, 1), (LIMIT - 1, LIMIT), (128, 129)):
        rows = row_words([pair])
        for a, b in (pair, pair[::-1]):
            expect("row of %d" % a, rows[(a - 1) * WORDS:a * WORDS], [1 << (b - 1) % 64 if k == (b - 1) // 64 else 0 for k in range(WORDS)])
        expect("two bits", sum(bin(word).count("1") for word in rows), 2)
    expect("rows of 16 words", (WORDS, len(row_words([]))), ((LIMIT + 63) // 64, ROWS))
    answer, asked, _, rows = told(bare(4, PAIRS))
    expect("all pairs of four", (answer[:3], asked, [rows[k * WORDS] for k in range(5)]),
        (("accepted", 4, 6), 6, [0b1110, 0b1101, 0b1011, 0b0111, 0]))
    expect("words beyond", rows[ROWS:], [FILL] * 3)


def rows_asked():
    for name, data, want in (
            ("none", bare(4, []), 0), ("accepted", bare(4, PAIRS[:5]), 5), ("bond 4 repeats", bare(4, PAIRS[:3] + [(2, 1)]), 4),
            ("bond 2 repeats", bare(4, [(1, 2), (1, 2), (3, 4)]), 2), ("equal ends", bare(4, PAIRS[:3] + [(2, 2)]), 3),
            ("an end that is not there", bare(4, PAIRS[:3] + [(2, 5)]), 3), ("a later line", bare(4, PAIRS)[:-1], 6), ("no bytes", b"", 0),
            ("an earlier line", edit(5, b"x", 1), 0), ("the sample", SAMPLE, 1), ("a full ring", bare(LIMIT, ring(LIMIT)), LIMIT)):
        answer, asked, _, rows = told(data)
        expect("asked, " + name, asked, want)
        if answer[0] == "refused":
            expect("zeros after a refusal, " + name, rows, [0] * ROWS + [FILL] * 3)


def rows_too_short():
    for kind, atoms, room, number in ((2, 0, 0, 1), (2, LIMIT, ROWS - 1, 1), (1, LIMIT - 1, 0, 2), (1, LIMIT, ROWS - 1, 35),
            (0, LIMIT, 0, 35)):
        expect("%d changes nothing" % number, told(b"", kind, atoms, room), (("refused", number, 0, 0), 0, tables(atoms), [FILL] * room))
    expect("just enough", told(SAMPLE, room=ROWS)[0][0], "accepted")


def rows_and_list_say_the_same():
    """Answers and tables as without rows; the rows hold a pair exactly if the table of bonds does."""
    rng = random.Random(71)
    for k in range(120):
        kind = k % 2
        data = to_bytes(rng, spoiled_bond(rng, kind).rows) if k % 3 == 0 else damaged(rng, kind)
        answer, asked, (atoms, bonds), rows = told(data, kind)
        plain = tables()
        expect("answer %d" % k, (read_record(kind, data, *plain), plain), (answer, (atoms, bonds)))
        pairs = {frozenset(bonds[6 * b:6 * b + 2]) for b in range(LIMIT)} - {frozenset([0])}
        found = {frozenset((a + 1, 64 * w + b + 1)) for a in range(LIMIT) for w in range(WORDS) if rows[a * WORDS + w]
                 for b in range(64) if rows[a * WORDS + w] >> b & 1}
        expect("pairs %d" % k, found, pairs)
        both = all(bonded(rows, *pair) and bonded(rows, *reversed(tuple(pair))) for pair in map(tuple, pairs))
        expect("both directions %d" % k, both, True)
        compared = pairs_compared(data, answer)
        expect("asked and compared %d" % k, asked * (asked - 1) // 2 >= compared >= (asked - 1) * (asked - 2) // 2 * (asked > 0), True)


def answered_rows():
    case = head("read", 1, LIMIT, LIMIT, LIMIT, len(SAMPLE)) + block(SAMPLE)
    reader = Reader(case)
    line = answer_read(reader, *map(int, reader.line()[1:]))
    want = digest([2, 0] + [0] * (2 * WORDS - 2) + [1] + [0] * (2 * ROWS - 2 * WORDS - 1))
    expect("a line with rows", (line.split(" atoms ")[0], line.split(" rows ")[1]),
           ("accepted 2 1 0 265 0 17 244 260 asked 1", "%d 1" % want))


ALL = [rows_by_hand, rows_asked, rows_too_short, rows_and_list_say_the_same, answered_rows]
