"""Pairs of deliveries from a seed: the same catalogue twice, with something changed in between."""

import random

from damage import damaged
from formulas import record
from generate import draft_record, file_rows, good_drafts, to_bytes
from samples import LINES, SAMPLE, edit


def changed(rng, draft):
    """The draft with one thing changed in place, or as it was."""
    choice = rng.randrange(8)
    if choice == 0:
        draft.header[rng.randrange(3)] = rng.choice([b"", b"x", b"x ", b"y"])
    elif choice == 1:
        draft.chiral = 1 - draft.chiral
    elif choice == 2 and draft.atoms:
        rng.choice(draft.atoms)[rng.choice(["mass", "parity", "h0"])] = rng.randrange(2)
    elif choice == 3 and draft.bonds:
        rng.choice(draft.bonds)[4] = rng.randrange(3)
    elif choice == 4 and draft.items:
        place = rng.randrange(len(draft.items))
        draft.items[place] = (draft.items[place][0], rng.choice([[], [b"v"], [b"v", b"w"], [b"v "]]))
    elif choice == 5 and draft.items:
        draft.items.pop()
    elif choice == 6:
        draft.items.append((b"NEW", [b"1"]))


def fixed_pairs():
    """The sample with one thing changed each time, items in many shapes, and files that are refused."""
    bad, worse = edit(drop=12), SAMPLE + b"x"
    edits = [SAMPLE, SAMPLE.replace(b"\n", b"\r\n"), SAMPLE.replace(b">  <", b">    <"), edit(4, b"xyz", 19), edit(6, b"  0", 37),
             edit(12, b"   "), edit(11, b"0417"), edit(11, b"00417 "), edit(11, b"417"), edit(6, b"1.2600", 5), edit(6, b"S", 32),
             edit(7, b"2", 9), edit(4, b"1", 15), edit(1, b""), edit(2, b"x"), edit(3, b"drum 4"), edit(10, b">  <LOT2>"), edit(drop=11),
             SAMPLE * 2, b"", edit(4, b"  0", 4).replace(LINES[6] + b"\n", b""), edit(8, b"  0", 15)]
    for old, new in [(SAMPLE, new) for new in edits] + [(old, SAMPLE * 3) for old in edits]:
        yield old, new
        yield new, old
    shapes = [[], [(b"A", [])], [(b"A", [b"1"])], [(b"A", [b"1", b"2"])], [(b"B", [b"1"])], [(b"A", [b"1"]), (b"B", [b"2", b"3"])],
              [(b"B", [b"2", b"3"]), (b"B", [b"2"]), (b"C", [b"4", b"5"])], [(b"A", [b"2"]), (b"A", [b"1"])], [(b"a", [b"1"])]]
    for a in shapes:
        for b in shapes:
            yield record((b"C",) * len(a), a), record((b"C", b"O")[:len(b)], b)
    for old, new in ((bad, worse), (worse, SAMPLE), (SAMPLE, bad), (b"", worse), (bad, SAMPLE), (SAMPLE * 2, worse), (b"x", b""), (b"", b"x")):
        yield old, new
    for size in (5, 60, 100, 200, 250):
        yield SAMPLE[:size], SAMPLE
        yield SAMPLE, SAMPLE[:size]


def any_pair(rng):
    """Two deliveries, often one catalogue with a change or two; at times one of them damaged."""
    seed = rng.randrange(10 ** 9)
    drafts, again = good_drafts(random.Random(seed), 1), good_drafts(random.Random(seed), 1)
    old = to_bytes(rng, file_rows(rng, drafts, 1))
    for _ in range(rng.choice([0, 1, 1, 3])):
        for draft in again:
            changed(rng, draft)
    choice = rng.random()
    if choice < 0.1:
        again.append(draft_record(rng))
    elif choice < 0.2 and again:
        del again[rng.randrange(len(again))]
    new = to_bytes(rng, file_rows(rng, again, 1)) if choice < 0.85 else damaged(rng, 1)
    return (old, new) if rng.random() < 0.5 else (new, old)
