"""A supplier's formula against the atoms drawn.

The formula is the first value line of a record's first item FORMULA. It is cut into words, and the
words are folded on a stack of open groups; counts are Python's own numbers, so none of them wraps.
"""

import re
from collections import Counter

from ctfile import SDFILE, read_into
from forms import SYMBOLS
from lines import Refusal

NAME = b"FORMULA"
ELEMENTS = {symbol.encode(): number for number, symbol in enumerate(SYMBOLS[:118], 1)}
HYDROGEN = 1
DEEPEST = 8
MOST_COUNT = 9999
FOUND = 3 * 118                 # places in the list of elements that differ
SYMBOL = 3                      # place in an atom's row
WORD = re.compile(rb"[A-Z][a-z]?|[()]|[0-9]+")
COUNT = re.compile(rb"[2-9]|[1-9][0-9]{1,2}")


def multiplied_out(text):
    """How often each element comes, and how deep groups nest; None if the text is no formula, however deep."""
    words = WORD.findall(text)
    if b"".join(words) != text:
        return None
    groups, unit, deepest = [Counter()], Counter(), 0      # unit: what a count would multiply
    for word in words:
        if word == b"(":
            groups.append(Counter())
            unit, deepest = Counter(), max(deepest, len(groups) - 1)
        elif word == b")":
            unit = groups.pop()
            if not groups or not unit:
                return None
            groups[-1] += unit
        elif word in ELEMENTS:
            unit = Counter([ELEMENTS[word]])
            groups[-1] += unit
        elif unit and COUNT.fullmatch(word):
            for element, times in unit.items():
                groups[-1][element] += times * (int(word) - 1)
            unit = Counter()
        else:
            return None
    return (groups[0], deepest) if len(groups) == 1 and groups[0] else None


def formula_of(record):
    """The counts that the record's formula gives, or the refusal."""
    named = [item for item in record.items if item.name == NAME]
    if not named:
        raise Refusal(22)
    read = multiplied_out(named[0].values[0].text) if named[0].values else None
    if read is None:
        raise Refusal(31)
    counts, deepest = read
    if deepest > DEEPEST:
        raise Refusal(32)
    if max(counts.values()) > MOST_COUNT:
        raise Refusal(33)
    return counts


def differing(record):
    """(element, in the formula, drawn) for each element but hydrogen that differs, by element number."""
    counts = formula_of(record)
    drawn = Counter(atom[SYMBOL] for atom in record.atoms)
    if max(drawn, default=0) > len(ELEMENTS):
        raise Refusal(34)
    return [(element, counts[element], drawn[element]) for element in ELEMENTS.values()
            if element != HYDROGEN and counts[element] != drawn[element]]


def compare_formula(data, atom_table, bond_table, found):
    """("differ", how many elements do) or the refusal; the elements with both counts are in `found`,
    zeros behind them. After 2 nothing has changed, after any other refusal `found` is zeros, and the
    tables are as reading the record leaves them."""
    try:
        record = read_into(SDFILE, data, atom_table, bond_table)
        rows = differing(record)
    except Refusal as refusal:
        if refusal.number != 2:
            found[:] = [0] * FOUND
        return refusal.answer()
    flat = [number for row in rows for number in row]
    found[:] = flat + [0] * (FOUND - len(flat))
    return ("differ", len(rows))
