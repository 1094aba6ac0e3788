"""Tests of bottles per supplier: by hand, and against a plain count."""

import random
from collections import Counter

from damage import damaged
from expect import expect
from formulas import record
from lines import Refusal
from samples import SAMPLE, edit
from suppliers import sent
from tally import Tally, report, with_file, with_files

EMPTY = Tally()
FULL = Tally(tuple((b"%02d" % k, 1) for k in range(64)), 0, 64)


def refused(tally, data, room=64):
    """Number, line, column and record of the refusal, or None."""
    try:
        with_file(tally, room, data)
    except Refusal as refusal:
        return refusal.number, refusal.line, refusal.column, getattr(refusal, "record", 0)


def reports_by_hand():
    expect("two from AB", report(with_file(EMPTY, 64, sent(b"AB", b"AB"))), b"     2 AB\n     0 missing\n     2 total\n")
    expect("nothing", report(EMPTY), b"     0 missing\n     0 total\n")
    tally = with_file(EMPTY, 64, sent(b"b", None, b"A", b"AB", b"a", b"AB ", b"ABC", b"b"))
    expect("rising byte order, not by length", report(tally),
           b"     1 A\n     1 AB\n     1 AB \n     1 ABC\n     1 a\n     2 b\n     1 missing\n     8 total\n")
    expect("six columns", report(Tally(((b"X", 999999),), 0, 999999)), b"999999 X\n     0 missing\n999999 total\n")
    for name, items, want in (
            ("no value line", [(b"SUPPLIER", [])], EMPTY._replace(missing=1, total=1)),
            ("the first item decides", [(b"SUPPLIER", []), (b"SUPPLIER", [b"AB"])], EMPTY._replace(missing=1, total=1)),
            ("the first line decides", [(b"SUPPLIER", [b"AB", b"CD"])], Tally(((b"AB", 1),), 0, 1)),
            ("another name", [(b"supplier", [b"AB"])], EMPTY._replace(missing=1, total=1)),
            ("byte for byte", [(b"LOT", [b"1"]), (b"SUPPLIER", [b" AB "])], Tally(((b" AB ", 1),), 0, 1))):
        expect(name, with_file(EMPTY, 64, record((), items)), want)


def refusals_of_tallies():
    for name, tally, room in (("room", EMPTY, 63), ("order", Tally(((b"B", 1), (b"A", 1)), 0, 2), 64),
            ("a name twice", Tally(((b"A", 1), (b"A", 1)), 0, 2), 64),
                              ("sum", Tally(((b"A", 1),), 0, 2), 64), ("missing in the sum", Tally(((b"A", 1),), 1, 1), 64),
                              ("a long name", Tally(((b"A" * 25, 1),), 0, 1), 64),
                              ("a high total", Tally(((b"A", 1000000),), 0, 1000000), 64)):
        expect("2, " + name, refused(tally, b"\x00\n", room), (2, 0, 0, 0))
    expect("24 bytes", refused(EMPTY, sent(b"A" * 24)), None)
    expect("23", refused(EMPTY, sent(b"AB", None, b"A" * 25)), (23, 0, 0, 3))
    expect("24", refused(FULL, sent(b"00", None, b"63", b"64")), (24, 0, 0, 4))
    expect("23 before 24", refused(FULL, sent(b"A" * 25)), (23, 0, 0, 1))
    near = Tally(((b"A", 999998),), 0, 999998)
    expect("the last record", refused(near, sent(b"A")), None)
    expect("25", refused(near, sent(b"A", None)), (25, 0, 0, 2))
    expect("25 before 23", refused(near, sent(b"A", b"A" * 25)), (25, 0, 0, 2))
    expect("25 before 24", refused(FULL._replace(missing=999935, total=999999), sent(b"new")), (25, 0, 0, 1))
    expect("in file order", refused(FULL, sent(b"new", b"A" * 25)), (24, 0, 0, 1))
    expect("the file first", refused(FULL, sent(b"new") + b"x"), (19, 10, 1, 0))
    expect("a bad file", refused(EMPTY, edit(drop=12)), (17, 12, 1, 0))


def a_refused_file_adds_nothing():
    files = [sent(b"AB", None), sent(b"CD") + b"x", sent(b"AB", b"E")]
    tally, bad = with_files(EMPTY, files)
    expect("the first and the third", (report(tally), {k: r.number for k, r in bad.items()}),
           (b"     2 AB\n     1 E\n     1 missing\n     4 total\n", {1: 19}))
    tally, bad = with_files(EMPTY, [sent(b"AB"), sent(b"AB", b"C" * 25), SAMPLE])
    expect("nothing of a file with 23", report(tally), b"     1 AB\n     1 missing\n     2 total\n")


def tallies_counted_plainly():
    rng = random.Random(81)
    names = [b"AB", b"AB ", b"ab", b"A", b"Z" * 24, b"0", b"\x7e"]
    for k in range(60):
        files, plain = [], Counter()
        for _ in range(rng.randrange(5)):
            chosen = [rng.choice(names + [None]) for _ in range(rng.randrange(6))]
            if rng.random() < 0.3:
                files.append(damaged(rng, 1) + b"x")
            else:
                files.append(sent(*chosen))
                plain.update(chosen)
        tally, bad = with_files(EMPTY, files)
        missing = plain.pop(None, 0)
        expect("tally %d" % k, tally, Tally(tuple(sorted(plain.items())), missing, sum(plain.values()) + missing))
        expect("good again %d" % k, tally.good(), True)


ALL = [reports_by_hand, refusals_of_tallies, a_refused_file_adds_nothing, tallies_counted_plainly]
