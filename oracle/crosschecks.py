"""Checks on generated files, where several sources of the answer have to agree."""

import random

import prefix
import vectors
from cases import OPERATIONS, answers, digest
from counter import counter_line
from ctfile import check, molfile, read_record, record_at, sdfile
from damage import aimed, damaged, surplus, truncated
from expect import expect
from field_tests import PLAIN
from generate import (all_symbols, draft_record, file_rows, good_drafts, plain_bytes, record_rows,
                      sized_record, to_bytes)
from limit import LIMIT
from lines import Refusal, Sheet
from writer import catalogue_text, write_record


def rngs(count, salt):
    for k in range(count):
        yield k, random.Random(1_000_000 * salt + k)


def readings(kind, data):
    sheet = Sheet(data)
    return [r.reading() for r in ([molfile(sheet)] if kind == 0 else sdfile(sheet))]


def good_files_read_as_drafted():
    """The generator knows what it drafted; the reading must say the same."""
    for k, rng in rngs(600, 1):
        kind = k % 2
        drafts = [all_symbols(rng)] if k == 1 else good_drafts(rng, kind, k % 100 == 99)
        data = to_bytes(rng, file_rows(rng, drafts, kind))
        want = [d.truth() if kind else d.truth()[:-1] + ((),) for d in drafts]
        expect("good file %d" % k, check(kind, data), ("accepted", len(drafts)))
        expect("reading of good file %d" % k, readings(kind, data), want)


def canonical_round_trips():
    """Canonical text reads as the same reading, and is its own canonical text."""
    for k, rng in rngs(300, 2):
        data = to_bytes(rng, file_rows(rng, good_drafts(rng, 1, k % 100 == 99), 1))
        text = catalogue_text(data)
        expect("round trip %d" % k, readings(1, text), readings(1, data))
        expect("canonical again %d" % k, catalogue_text(text), text)


def writing_what_was_read():
    """Tables and stretches of the record reader, handed to the writer, give the canonical text."""
    for k, rng in rngs(200, 3):
        data = to_bytes(rng, record_rows(rng, draft_record(rng), 1))
        atoms, bonds = [5] * (16 * LIMIT), [5] * (6 * LIMIT)
        _, n, m, chiral, _, h0, h1, i0, i1 = read_record(1, data + b"\xff", atoms, bonds)
        text = catalogue_text(data)
        room = bytearray(len(text) + 3)
        got = write_record(atoms, bonds, n, m, chiral, data[h0:h1], data[i0:i1], room)
        expect("write %d" % k, (got, bytes(room)), (("accepted", len(text)), text + bytes(3)))


def aimed_damage_is_met():
    """Spoiled files name their own refusal, by columns copied apart from the forms."""
    for k, rng in rngs(4000, 4):
        aim = surplus(rng) if k % 50 == 0 else aimed(rng, k % 2)
        got = check(aim.kind, to_bytes(rng, aim.rows))
        expect("aimed %d" % k, got, aim.answer())


def cut_files():
    """A cut good file gives 19 at the line after its last LF, unless it's cut between records."""
    for k, rng in rngs(600, 5):
        data = truncated(rng, k % 2)
        got = check(k % 2, data)
        if got[0] == "refused":
            expect("cut %d" % k, got, ("refused", 19, data.count(b"\n") + 1, 1))
        else:
            expect("cut %d" % k, (k % 2, data.rstrip(b"\r\n ")[-4:] in (b"", b"$$$$")), (1, True))


def refused_line_by_prefixes():
    """The refused line is the first one after which nothing helps."""
    for k, rng in rngs(250, 6):
        data = damaged(rng, k % 2)
        for kind in (0, 1):
            got = check(kind, data)
            brief = got if got[0] == "accepted" else ("refused", got[2])
            expect("prefixes %d" % k, brief, prefix.judge(kind, data))


def accepted_beginnings_can_be_finished():
    """Lines before the refused one can be finished to a good file, by the main program's word."""
    for k, rng in rngs(250, 7):
        kind = k % 2
        data = damaged(rng, kind)
        got = check(kind, data)
        lines = data.decode("latin-1").split("\n")[:-1]
        kept = [l[:-1] if l.endswith("\r") else l for l in lines[:got[2] - 1 if got[0] == "refused"
                                                                 else len(lines)]]
        rest = kept[last_record_start(kind, kept):]
        ways = [kept] + [kept + more for more in prefix.endings(rest, kind)]
        done = any(check(kind, "".join(l + "\n" for l in w).encode("latin-1"))[0] == "accepted"
                   for w in ways)
        expect("finished %d" % k, done, True)


def last_record_start(kind, lines):
    """Index of the line where the unfinished record begins."""
    sheet, first = Sheet("".join(l + "\n" for l in lines).encode("latin-1")), 0
    try:
        while kind == 1 and first < len(lines):
            first += record_at(sheet, first, 1).lines_used
    except Refusal:
        pass
    return first


def columns_left_of_a_refusal_are_good():
    """With plain columns from the refused one on, the line isn't refused any more; with plain
    columns only after the refused field, it is refused the same."""
    for k, rng in rngs(1500, 8):
        aim = aimed(rng, 1)
        row = aim.rows[aim.line - 1]
        if row.place not in PLAIN or aim.number in (3, 4, 10, 11):
            continue
        plain = PLAIN[row.place]
        if row.place == "counts" and aim.column > 3:    # keep m fitting to n
            plain = row.text[:3].ljust(3) + b"  0" + plain[6:]
        width = {7: 3, 8: 3, 12: 3, 9: 3, 6: 6, 15: 1}[aim.number]
        if row.place == "atom":
            width = 10 if aim.column < 31 else 2 if aim.column == 35 else width
        spoiled = row.text.ljust(80)
        after = aim.column - 1 + width
        row.text = spoiled[:after] + plain.ljust(80)[after:]
        expect("same refusal %d" % k, check(1, plain_bytes(aim.rows)), aim.answer())
        row.text = spoiled[:aim.column - 1] + plain.ljust(80)[aim.column - 1:]
        got = check(1, plain_bytes(aim.rows))
        same_line = got[0] == "refused" and got[2] == aim.line and got[1] not in (10, 11)
        expect("good left columns %d, %r" % (k, got), same_line, False)


def counter_follows_check():
    """While every record is short, the counter says what the check says."""
    for k, rng in rngs(300, 9):
        data = damaged(rng, 1)
        got = check(1, data)
        line = ("accepted %d" if got[0] == "accepted" else "refused %d line %d column %d") % got[1:]
        expect("counter %d" % k, counter_line(data), line)


def counter_around_its_buffer():
    for k, rng in rngs(4, 10):
        small = sized_record(rng, 700)
        for size in (65535, 65536):
            data = small + sized_record(rng, size)
            expect("fits %d" % size, counter_line(data + small), "accepted 3")
        long = sized_record(rng, 65537)
        expect("one byte too long", counter_line(small + long), "record 2 too long")
        expect("good all the same", check(1, small + long + small), ("accepted", 3))
        lines = (small + long).count(b"\n")
        expect("cut at the buffer's end", counter_line(small + long[:-1]),
               "refused 19 line %d column 1" % lines)
        expect("earlier refusal", counter_line(b"$$$$\n" + long), "refused 5 line 1 column 1")
        expect("earlier long record", counter_line(long + b"$$$$\n"), "record 1 too long")


def vector_cases():
    """The case file is the same for a seed, reads back to its end, and knows every operation."""
    expect("same cases for a seed", vectors.make_cases(5, 2000) == vectors.make_cases(5, 2000), True)
    rng, makers = random.Random(5), dict.fromkeys(vectors.MAKERS)
    cases = [make(rng) for make in makers for _ in range(60)]
    expect("one line a case", answers(b"".join(cases)).count("\n"), len(cases))
    expect("every operation", {vectors.operation_of(case) for case in cases}, set(OPERATIONS))
    expect("digest of nothing", digest([]), 1)
    expect("digest of 0", digest([0]), 2147549248)
    expect("digest of -1, 2", digest([-1, 2]), (2147549247 * 65599 + 2147483651) % 4294967291)
    for row in ([0] * 3, [0, 5, 0, 0], [7, 0, -1], [0] * 1000):
        plain = 1
        for number in row:
            plain = (plain * 65599 + number + 2147483649) % 4294967291
        expect("digest of %d numbers" % len(row), digest(row), plain)


ALL = [good_files_read_as_drafted, canonical_round_trips, writing_what_was_read,
       aimed_damage_is_met, cut_files, refused_line_by_prefixes,
       accepted_beginnings_can_be_finished, columns_left_of_a_refusal_are_good,
       counter_follows_check, counter_around_its_buffer, vector_cases]
