"""Bond rows: for each atom a row of bits that says which atoms it is bonded to, atom 1 the lowest bit of the first word.

Only the record reader takes them. Case and line:

    read KIND ATOM_ROOM BOND_ROOM ROW_ROOM SIZE
    accepted N M CHIRAL LENGTH 0 HEADER_END ITEMS_START ITEMS_END asked K atoms A B bonds C D rows E F
    refused NUMBER line LINE column COLUMN asked K atoms A B bonds C D rows E F

ROW_ROOM counts rows of 16 words; word i holds 1000003 + i before the case. E is the digest of the first 999 rows (of all, if
there are fewer) and F of the words beyond, each word taken as its low and then its high 32 bits.
"""

from ctfile import MOLFILE, SDFILE, pairs_searched, read_record, table_rooms
from limit import LIMIT

WORD = 64
WORDS = (LIMIT + WORD - 1) // WORD      # of a row
ROWS = LIMIT * WORDS                    # words that have to be lent


def words(bits):
    """The words of a row, from the number that has these bits."""
    return [bits >> WORD * k & 2 ** WORD - 1 for k in range(WORDS)]


def row_words(pairs):
    """All rows, each bond in the rows of both its ends."""
    bits = [0] * LIMIT
    for a, b in pairs:
        bits[a - 1] |= 1 << b - 1
        bits[b - 1] |= 1 << a - 1
    return [word for row in bits for word in words(row)]


def rows_short(kind, atom_table, bond_table, rows):
    """35 comes after 1 and 2, and before the record."""
    return (kind in (MOLFILE, SDFILE) and min(table_rooms(atom_table, bond_table)) >= LIMIT
            and len(rows) < ROWS)


def read_with_rows(kind, data, atom_table, bond_table, rows):
    """The record reader's answer, and how many rows it asked: one for each bond line that comes to
    the search for a repeated pair. `rows` is a flat list of words, changed in place: after an accepted
    reading they say the record's pairs, after 1, 2 and 35 they are as they were, else zeros."""
    if rows_short(kind, atom_table, bond_table, rows):
        return ("refused", 35, 0, 0), 0
    answer = read_record(kind, data, atom_table, bond_table)
    if answer[:2] in (("refused", 1), ("refused", 2)):
        return answer, 0
    searched = pairs_searched(data, answer)
    rows[:ROWS] = row_words(searched if answer[0] == "accepted" else [])
    return answer, len(searched)


def halves(some):
    """Words as numbers that a digest takes."""
    return [half for word in some for half in (word & 2 ** 32 - 1, word >> 32)]
