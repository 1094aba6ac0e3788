"""Tests of how many pairs the search for a repeated bond compares: by hand, and by sums over spoiled records."""

import random

from cases import answers, read_case
from ctfile import check, pairs_compared, read_record
from damage import spoiled_bond
from expect import expect
from generate import to_bytes
from limit import LIMIT
from samples import LINES, SAMPLE, bare, edit, ring, tables

PAIRS = [(1, 2), (3, 4), (2, 3), (4, 1), (1, 3), (2, 4)]


def compared(data, kind=1, atoms=LIMIT):
    return pairs_compared(data, read_record(kind, data, *tables(atoms, LIMIT)))


def triangle(k):
    """How many pairs of k bonds there are."""
    return sum(range(k))


def comparisons_by_hand():
    for m, want in ((0, 0), (1, 0), (2, 1), (3, 3), (4, 6), (5, 10), (6, 15)):
        expect("%d bonds" % m, compared(bare(4, PAIRS[:m])), want)
    expect("bond 4 repeats bond 1", compared(bare(4, PAIRS[:3] + [(2, 1)])), 3 + 1)
    expect("bond 4 repeats bond 3", compared(bare(4, PAIRS[:3] + [(2, 3)])), 3 + 3)
    expect("bond 2 repeats bond 1", compared(bare(4, [(1, 2), (1, 2), (3, 4)])), 1)
    expect("the first repeat ends it", compared(bare(4, PAIRS[:3] + [(4, 3), (2, 1)])), 3 + 2)
    expect("equal ends compare nothing", compared(bare(4, PAIRS[:3] + [(2, 2)])), 3)
    expect("an end that is not there", compared(bare(4, PAIRS[:3] + [(2, 5), (1, 2)])), 3)
    expect("equal ends in the first bond", compared(bare(4, [(1, 1), (1, 1)])), 0)
    late = bare(4, PAIRS[:3] + [(1, 2)]).replace(b"  1  2  1\nM", b"  1  2  9\nM")
    expect("a bad type before the search", compared(late), 3)
    late = bare(4, PAIRS[:3] + [(1, 2)]).replace(b"  1  2  1\nM", b"  1  2  1".ljust(30) + b"x\nM")
    expect("a bad column before the search", compared(late), 3)


def other_refusals():
    good = bare(4, PAIRS)
    for name, data in (("13", good.replace(b"M  END", b"M  ENX")), ("16", good.replace(b"$$$$", b"")),
                       ("19", good[:-1]), ("8 in a property", good.replace(b"M  END", b"M  CHG  1   5   1"))):
        expect("after all bonds, " + name, compared(data), 15)
    expect("18", compared(good, 0), 15)
    expect("a molfile", compared(good[:-5], 0), 15)
    for name, data in (("3", b"x" * 81 + b"\n"), ("5", b"$$$$\n"), ("8", edit(4, b"  3", 13)), ("12", edit(4, b"  2", 4)),
                       ("9", edit(5, b"x", 32)), ("19", b""), ("19 after the atoms", b"\n".join(LINES[:6]) + b"\n")):
        expect("before all bonds, " + name, compared(data), 0)
    expect("1", compared(SAMPLE, 2), 0)
    expect("2", compared(good, 1, LIMIT - 1), 0)
    lines = good.splitlines(keepends=True)
    for k in range(7):
        expect("cut after %d bonds" % k, compared(b"".join(lines[:8 + k]) + b"  1"), triangle(k))


def large_numbers_of_comparisons():
    expect("a full ring", compared(bare(LIMIT, ring(LIMIT))), triangle(LIMIT))
    again = ring(LIMIT)[:-1] + [(LIMIT - 1, LIMIT - 2)]
    expect("a late repeat of a late bond", compared(bare(LIMIT, again)), triangle(LIMIT - 1) + LIMIT - 2)


def spoiled_bonds_are_compared():
    """The generator knows which bond it spoiled, and the draft the pairs before it."""
    rng = random.Random(41)
    numbers = set()
    for k in range(600):
        aim = spoiled_bond(rng, 1)
        data = to_bytes(rng, aim.rows)
        expect("spoiled %d" % k, check(1, data), aim.answer())
        draft, text = aim.rows[0].draft, aim.rows[aim.line - 1].text
        bond = aim.line - 4 - draft.n               # from 1
        want = triangle(bond - 1)
        if aim.number == 11:
            pair = {int(text[:3]), int(text[3:6])}
            want += 1 + [set(b[:2]) for b in draft.bonds].index(pair)
        expect("compared %d" % k, compared(data), want)
        numbers.add(aim.number)
    expect("refusals of bonds", numbers >= {7, 8, 10, 11, 15}, True)


def answered_counts():
    line = answers(read_case(1, LIMIT, LIMIT, bare(4, PAIRS[:3] + [(4, 3)])))
    expect("a refusal's line", line.startswith("refused 11 line 12 column 1 asked 4 atoms "), True)
    line = answers(read_case(1, LIMIT, LIMIT, SAMPLE))
    expect("a reading's line", line.startswith("accepted 2 1 0 265 0 17 244 260 asked 1 atoms "), True)


ALL = [comparisons_by_hand, other_refusals, large_numbers_of_comparisons, spoiled_bonds_are_compared, answered_counts]
