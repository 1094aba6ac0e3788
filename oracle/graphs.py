"""Records whose bonds make pieces of many shapes: how many atoms, and the pairs that are bonded, in file order."""

from generate import draft_record, record_rows, to_bytes
from limit import LIMIT
from samples import bare, ring


def chain(atoms):
    return list(zip(atoms, atoms[1:]))


def late(n):
    """Two halves that the last bond joins at the lowest atom; bonds go from the highest atom down."""
    half = n // 2
    return chain(range(n, half, -1)) + chain(range(half, 0, -1)) + [(n, 1)]


def strands(n, count):
    """Chains side by side, each of every count-th atom, from the highest down."""
    return [(k, k - count) for k in range(n, count, -1)]


def fixed_graphs():
    for n in (0, 1, 2, 3, 63, 64, 65, 128, 129):
        yield n, []
    for pair in ((63, 64), (64, 65), (65, 1), (2, 66), (66, 65)):
        yield 66, [pair]
    for n in (3, 4, 5):
        yield n, ring(n)
        yield n + 1, [(a + 1, b + 1) for a, b in ring(n)]
        yield 2 * n, ring(n) + [(a + n, b + n) for a, b in ring(n)]
    for n in (2, 3, 4, 5, 9, 70):
        yield n, chain(range(1, n + 1))
        yield n, chain(range(n, 0, -1))
        yield n, late(n)[:n * (n - 1) // 2]
        yield n, chain(range(n, 0, -1))[::-1]
    for n, count in ((5, 2), (7, 3), (131, 2), (200, 7)):
        yield n, strands(n, count)
    yield 9, [(1, 9), (2, 8), (3, 7), (4, 6), (8, 3)]
    yield 6, [(1, 2), (3, 4), (5, 6), (2, 3), (4, 5)]
    yield 6, [(5, 6), (3, 4), (1, 2), (6, 3), (4, 1)]
    yield 7, [(a, b) for a in range(1, 6) for b in range(1, a)]     # all pairs of five, and two lone atoms
    yield 8, [(8, k) for k in range(7, 0, -1)]                      # a star around the last atom
    yield LIMIT, strands(LIMIT, 3)


def draft_graph(rng):
    """Few atoms or some more, with few bonds or many, in any order and direction."""
    n = rng.choice([1, 2, 3, 4, 5, 6, 8, 10, 12, 14])
    atoms = rng.sample(range(1, n + 1), n)
    pairs = set()
    while atoms:                            # a chain or a tree of each piece, at times with a bond more
        size = rng.randrange(1, len(atoms) + 1)
        piece, atoms = atoms[:size], atoms[size:]
        for k in range(1, size):
            pairs.add(frozenset((piece[k], piece[k - 1] if rng.random() < 0.6 else rng.choice(piece[:k]))))
        if size > 2 and rng.random() < 0.4:
            pairs.add(frozenset(rng.sample(piece, 2)))
    pairs = [tuple(rng.sample(sorted(pair), 2)) for pair in sorted(pairs, key=sorted)]
    rng.shuffle(pairs)
    return n, pairs


def any_graph(rng, kind):
    """A record with such bonds, in short lines or as any record has them."""
    n, pairs = draft_graph(rng)
    if rng.random() < 0.8:
        data = bare(n, pairs)
        return data if kind == 1 else data[:-5]
    draft = draft_record(rng, n, 0, 0)
    draft.bonds = [[*pair, rng.randrange(3, 9), 0, 0, 0] for pair in pairs]
    return to_bytes(rng, record_rows(rng, draft, kind))
