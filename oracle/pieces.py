"""The separate pieces of a record: atoms that a chain of bonds joins, whatever the bonds' types.

Atoms are visited by rising number; one that no earlier piece has reached heads a piece, and all that
its bonds lead to belong to it.
"""

from ctfile import read_into
from limit import LIMIT
from lines import Refusal


def labelled(n, pairs):
    """For each atom from 1 the lowest atom of its piece."""
    beside = {atom: [] for atom in range(1, n + 1)}
    for a, b in pairs:
        beside[a].append(b)
        beside[b].append(a)
    labels = {}
    for head in beside:
        reached = [] if head in labels else [head]
        while reached:
            atom = reached.pop()
            if atom not in labels:
                labels[atom] = head
                reached += beside[atom]
    return [labels[atom] for atom in beside]


def split_record(kind, data, atom_table, bond_table, labels, heads, sizes):
    """("pieces", atoms, how many pieces) or the refusal. The lists, of as many places as the limit,
    hold each atom's label, and the pieces' heads and sizes by rising head, with zeros behind. After 1
    and 2 nothing has changed, after any other refusal the lists are zeros; the tables are as reading
    the record leaves them."""
    try:
        record = read_into(kind, data, atom_table, bond_table)
    except Refusal as refusal:
        if refusal.number not in (1, 2):
            for numbers in (labels, heads, sizes):
                numbers[:] = [0] * LIMIT
        return refusal.answer()
    found = labelled(record.n, [bond[:2] for bond in record.bonds])
    rising = sorted(set(found))
    for numbers, used in ((labels, found), (heads, rising), (sizes, [found.count(head) for head in rising])):
        numbers[:] = used + [0] * (LIMIT - len(used))
    return ("pieces", record.n, len(rising))
