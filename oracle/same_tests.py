"""Tests of one text for one catalogue: the same reading exactly if the same canonical text."""

import random

from ctfile import sdfile
from expect import expect
from generate import file_rows, good_drafts, to_bytes
from lines import Sheet
from samples import SAMPLE, coded, edit
from same import line_of, same
from writer import catalogue_text, text_of


def deliveries_by_hand():
    for name, new, want in (
            ("itself", SAMPLE, "same 1"), ("line ends", SAMPLE.replace(b"\n", b"\r\n"), "same 1"),
            ("columns not read", edit(4, b"xyz", 19), "same 1"),
            ("columns not read in an atom", edit(5, b"999", 55), "same 1"), ("spaces of an item header", edit(10, b"> <LOT>  "), "same 1"),
            ("a blank of spaces", edit(12, b"  "), "same 1"), ("leading zeros of a number", edit(7, b"001", 1), "same 1"),
            ("minus zero", edit(5, b"-0.0000", 4), "same 1"), ("a code that M  CHG voids", edit(5, b"  4", 37), "same 1"),
            ("one zero of a lot", edit(11, b"0417"), "differ 1"), ("a space after a value", edit(11, b"00417 "), "differ 1"),
            ("a space after a title", edit(1, b"AB-00417 "), "differ 1"), ("a name's case", edit(10, b">  <Lot>"), "differ 1"),
            ("a record more", SAMPLE * 2, "differ 2"), ("none", b"", "differ 1"),
            ("a refused file", edit(drop=12), "refused 2 17 line 12 column 1")):
        expect("same, " + name, line_of(same(SAMPLE, new)), want)
    expect("two empty files", line_of(same(b"", b"")), "same 0")
    expect("the first judged first", line_of(same(SAMPLE + b"x", b"x")), "refused 1 19 line 14 column 1")
    expect("the second record", line_of(same(SAMPLE * 3, SAMPLE + edit(4, b"1", 15) + edit(11, b"x"))), "differ 2")
    expect("a charge by code or by line", line_of(same(coded(),
        coded(b"M  CHG  6   2   3   3   2   4   1   6  -1   7  -2   8  -3", b"M  RAD  1   5   2"))), "same 1")


def same_text_exactly():
    """Two spellings of one draft have one text; drafts that differ have different texts; a text is its own."""
    for k in range(300):
        rng = random.Random(3000 + k)
        old, new = good_drafts(random.Random(k), 1), good_drafts(random.Random(k), 1)
        if k % 2 and new:
            draft = rng.choice(new)
            choice = rng.randrange(4)
            if choice == 0:
                draft.header[2] = rng.choice([b"", b" ", b"drum 3", b"drum 3 "])
            elif choice == 1 and draft.items:
                draft.items[0] = (draft.items[0][0], [b"x", b"x "][:rng.randrange(3)])
            elif choice == 2 and draft.atoms:
                draft.atoms[-1]["xyz"][2] = rng.choice([0, 1, -1])
            else:
                draft.items.append((b"A", []))
        first, second = (to_bytes(rng, file_rows(rng, drafts, 1)) for drafts in (old, new))
        texts = catalogue_text(first), catalogue_text(second)
        truths = [d.truth() for d in old], [d.truth() for d in new]
        answer = same(first, second)
        expect("same text %d" % k, texts[0] == texts[1], truths[0] == truths[1])
        expect("same reading %d" % k, answer[0] == "same", truths[0] == truths[1])
        expect("the canonical text %d" % k, [same(first, texts[0])[0], catalogue_text(texts[0]) == texts[0]], ["same", True])
        if answer[0] == "differ":
            pieces = [list(map(text_of, sdfile(Sheet(data)))) for data in (first, second)]
            unlike = [a != b for a, b in zip(*pieces)]
            want = unlike.index(True) + 1 if True in unlike else min(map(len, pieces)) + 1
            expect("the first that differs %d" % k, answer, ("differ", want))


ALL = [deliveries_by_hand, same_text_exactly]
