"""Tests of the pieces of a record: by hand, and against labels that are lowered along bonds until nothing changes."""

import random

from cases import answers, digest, pieces_case
from ctfile import one_record
from expect import expect
from generate import draft_record, file_rows, to_bytes
from graphs import any_graph, draft_graph, fixed_graphs
from limit import LIMIT
from pieces import labelled, split_record
from samples import FILL, MOLFILE, SAMPLE, bare, read, ring, tables
from small import small_refusals, small_surplus

EMPTY = [0] * LIMIT


def told(data, kind=1, atoms=LIMIT, bonds=LIMIT):
    """The answer, the three lists, and the tables."""
    lists, lent = [[FILL] * LIMIT for _ in range(3)], tables(atoms, bonds)
    return split_record(kind, data, *lent, *lists), lists, lent


def filled(*numbers):
    return list(numbers) + EMPTY[len(numbers):]


def pieces_by_hand():
    for n, pairs, labels in (
            (0, [], []), (1, [], [1]), (3, [], [1, 2, 3]), (3, [(3, 1)], [1, 2, 1]), (3, [(2, 3)], [1, 2, 2]), (3, ring(3), [1, 1, 1]),
            (4, [(4, 3), (3, 2), (2, 1)], [1, 1, 1, 1]), (5, [(5, 3), (4, 2)], [1, 2, 3, 2, 3]),
            (5, [(5, 3), (4, 2), (5, 4)], [1, 2, 2, 2, 2]),
            (6, [(1, 2), (3, 4), (5, 6), (6, 3)], [1, 1, 3, 3, 3, 3]), (4, [(4, 1), (2, 3)], [1, 2, 2, 1])):
        expect("labels of %d atoms, %s" % (n, pairs), labelled(n, pairs), labels)
    data = bare(6, [(6, 2), (3, 5), (2, 4)])
    answer, lists, lent = told(data)
    expect("a salt", (answer, lists), (("pieces", 6, 3), [filled(1, 2, 3, 2, 3, 2), filled(1, 2, 3), filled(1, 3, 2)]))
    expect("a salt's tables", lent, tuple(read(data)[1:]))
    expect("the sample", told(SAMPLE)[:2], (("pieces", 2, 1), [filled(1, 1), filled(1), filled(2)]))
    expect("a molfile", told(MOLFILE, 0)[0], ("pieces", 2, 1))
    expect("no atoms", told(bare(0, []))[:2], (("pieces", 0, 0), [EMPTY] * 3))
    for kind in (1, 2, 3, 4, 5, 6, 7, 8):
        expect("bond type %d" % kind, told(SAMPLE.replace(b"  1  2  1", b"  1  2  %d" % kind))[0], ("pieces", 2, 1))


def refused_pieces():
    for kind, atoms, bonds, number in ((2, 0, 0, 1), (7, LIMIT, LIMIT, 1), (1, LIMIT - 1, LIMIT, 2), (0, LIMIT, LIMIT - 1, 2)):
        expect("%d changes nothing" % number, told(SAMPLE, kind, atoms, bonds),
               (("refused", number, 0, 0), [[FILL] * LIMIT] * 3, tables(atoms, bonds)))
    for kind, files in ((1, small_refusals()), (0, small_surplus())):
        for number, line, column, data in files:
            expect("the record's own refusal", told(data, kind), (("refused", number, line, column), [EMPTY] * 3, tables(fill=0)))


def lowered(n, pairs):
    """Each atom its own label; a bond gives both ends the lower, until nothing changes."""
    labels = list(range(n + 1))
    while True:
        before = list(labels)
        for a, b in pairs:
            labels[a] = labels[b] = min(labels[a], labels[b])
        if labels == before:
            return labels[1:]


def pieces_by_lowering():
    rng = random.Random(61)
    for n, pairs in [*fixed_graphs(), *(draft_graph(rng) for _ in range(1500))]:
        labels = labelled(n, pairs)
        expect("lowered, %d atoms" % n, labels, lowered(n, pairs))
        expect("in another order", labelled(n, [pair[::-1] for pair in pairs[::-1]]), labels)
        expect("lowest of its piece", all(labels[k - 1] == k for k in labels), True)


def sizes_add_up():
    rng = random.Random(62)
    for k in range(300):
        kind = k % 2
        data = any_graph(rng, kind) if k % 3 else to_bytes(rng, file_rows(rng, [draft_record(rng)], kind))
        (word, n, count), (labels, heads, sizes), _ = told(data, kind)
        expect("atoms %d" % k, (word, n, sum(sizes)), ("pieces", one_record(kind, data).n, n))
        expect("heads %d" % k, heads, filled(*sorted(set(labels[:n]))))
        expect("count %d" % k, (count, sizes[count:]), (sum(map(bool, heads)), EMPTY[count:]))
        expect("sizes %d" % k, sizes[:count], [sum(label == head for label in labels) for head in heads[:count]])


def answered_pieces():
    line = answers(pieces_case(1, LIMIT, LIMIT, bare(3, [(3, 1)])))
    expect("a line", line.startswith("pieces 3 2 labels %d heads %d sizes %d atoms " % tuple(
        digest(filled(*numbers)) for numbers in ((1, 2, 1), (1, 2), (2, 1)))), True)
    line = answers(pieces_case(3, 0, 0, b""))
    expect("1", line.startswith("refused 1 line 0 column 0 labels %d heads " % digest(range(1000003, 1000003 + LIMIT))), True)


ALL = [pieces_by_hand, refused_pieces, pieces_by_lowering, sizes_add_up, answered_pieces]
