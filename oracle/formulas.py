"""Records with formulas from a seed: nested groups, counts around their limits, texts that are no formula, atoms that
agree with the formula or nearly do."""

from collections import Counter

from generate import ELEMENTS

NAMES = ELEMENTS[:118]
ALIKE = "H He Ho Hf B Be Br C Ca Co Cs N Na Ni O Os F Fe P Pb S Sc Sn Cl I In K Og U".split()
OTHERS = [b"A", b"Q", b"*", b"LP"]      # symbols of an atom table that no formula has
NO_FORMULA = [
    b"co", b"cO", b"Cx", b"COx", b"Xx", b"D2O", b"A", b"Q", b"*", b"LP", b"CA", b"Uue", b"C1", b"C0", b"C00", b"C01", b"C02",
    b"C1000", b"C0999",
    b"C10000", b"(C)1", b"(C)0", b"(C)02", b"(C)1000", b"2", b"2C", b"(2C)", b"C(2)", b"()", b"C()", b"()C", b"(())", b"()2",
    b"(", b")", b"(C",
    b"C)", b"((C)", b"(C))", b")C(", b"C2)", b"(C2", b" C", b"C ", b"C 2", b"C2 ", b"C O", b"( C)", b"C-2", b"C+", b"Cl-", b"C.O",
    b"C2.5", b"[C]",
    b"{C}2", b"C,O", b"C$", b"C>", b"Ca(OH)2.H2O", b"C2H6O1", b"(C)(", b"C" + b"9" * 150, b"(" * 9 + b"C1" + b")" * 9,
    b"(" * 9 + b"C" + b")" * 8,
    b"(" * 9 + b"C" + b")" * 10, b"(" * 9 + b")" * 9, b"(" * 200, b"(" * 99 + b"C" + b")" * 100]
GOOD = [b"C", b"C2", b"C999", b"C10", b"C90", b"CC", b"CO", b"Co", b"CoO", b"COCo", b"Ca(OH)2", b"(C)", b"(C)2", b"(C2)2",
    b"((C))", b"(C(O)2)3", b"Og", b"HHe",
        b"H2", b"(H)9", b"Sc", b"SC", b"OsOS", b"C(O)(O)2O", b"Al2(SO4)3", b"Fe4(Fe(CN)6)3", b"(H101)99C", b"(C101)99",
        b"C999" * 10 + b"C9",
        b"(" * 8 + b"C" + b")" * 8, b"(C" * 8 + b")2" * 8, b"(C)(C)(((C)))", b"C" * 200]
DEEP = [b"(" * 9 + b"C" + b")" * 9, b"C(" + b"(" * 8 + b"C" + b")" * 8 + b")2", b"(" * 10 + b"C" + b")" * 10, b"(" * 99 + b"C" + b")" * 99,
        b"(C" * 9 + b")" * 9, b"(" * 9 + b"C" + b")999" * 9, b"(" * 40 + b"H" + b")999" * 37 + b")" * 3,
        b"(C)" + b"(" * 9 + b"Co2" + b")" * 9,
        b"(" * 8 + b"(C)O" + b")" * 8, b"(" * 8 + b"C(O)" + b")" * 8, b"(" * 16 + b"C" + b")" * 16]
HIGH = [b"(C100)100", b"(C101)99C", b"C999" * 10 + b"C10", b"(H100)100", b"(H101)99H", b"((H999)999)999", b"(C999)999O", b"C(H999)11",
        b"(" * 8 + b"C999" + b")999" * 8, b"(" * 8 + b"H999" + b")999" * 8, b"(" * 8 + b"COg2" + b")99" * 8, b"(C2(O101)99)2",
        b"(" * 4 + b"He10" + b")10" * 4]


def record(symbols, items, bonds=(), end=b"\n"):
    """A record of short lines: these symbols, bonds between these pairs, these items."""
    rows = [b"", b"", b"", b"%3d%3d".ljust(33) % (len(symbols), len(bonds)) + b" V2000"]
    rows += [b" " * 31 + symbol for symbol in symbols] + [b"%3d%3d  1" % pair for pair in bonds] + [b"M  END"]
    for name, values in items:
        rows += [b">  <" + name + b">", *values, b""]
    return b"".join(row + end for row in rows + [b"$$$$"])


def sent(text, symbols=(b"C", b"O")):
    return record(symbols, [(b"FORMULA", [text])])


def draft_units(rng, depth):
    """A row of units as text, with the elements that it comes to."""
    text, counts = b"", Counter()
    for _ in range(rng.choice([1, 1, 2, 3])):
        if depth and rng.random() < 0.4:
            inner, one = draft_units(rng, depth - 1)
            unit = b"(" + inner + b")"
        else:
            name = rng.choice(ALIKE) if rng.random() < 0.8 else rng.choice(NAMES)
            unit, one = name.encode(), Counter([name])
        times = rng.choice([1, 1, 1, 2, 2, 3, 4, 10]) if rng.random() < 0.95 else rng.choice([99, 100, 999])
        text += unit + (b"%d" % times if times > 1 else b"")
        for name, count in one.items():
            counts[name] += times * count
    return text, counts


def draft_formula(rng, depth=3, most=None):
    """A formula of at most 200 bytes; with `most`, of at most that many atoms."""
    while True:
        text, counts = draft_units(rng, depth)
        if len(text) <= 200 and (most is None or sum(counts.values()) <= most):
            return text, counts


def nearly(rng, counts):
    """The atoms of a formula in any order, at times one too many, one too few, or another in its place; hydrogens as it comes."""
    atoms = [name for name in counts.elements() if name != "H" or rng.random() < 0.5]
    rng.shuffle(atoms)
    for _ in range(rng.choice([0, 0, 1, 1, 2])):
        choice = rng.randrange(3)
        if choice and atoms:
            atoms.pop()
        if choice < 2:
            atoms.insert(0, rng.choice(ALIKE))
    return [name.encode() for name in atoms]


def items_around(rng, text):
    """The formula among other items; only the first item of the name counts, and of it the first line."""
    item = (b"FORMULA", [text] + rng.choice([[], [], [], [b"C"], [b"no formula", b"C2"]]))
    before = rng.choice([[], [], [], [(b"LOT", [b"C9"])], [(b"FORMULA ", [b"C"])], [(b"formula", [])]])
    return before + [item] + rng.choice([[], [], [], [(b"FORMULA", [b"C"])], [(b"FORMULA", [])]])


def any_record(rng):
    """A record that agrees with its formula or nearly does, or one with any of the refusals of its own."""
    choice, end = rng.random(), rng.choice([b"\n", b"\n", b"\r\n"])
    text, counts = draft_formula(rng, most=9)
    symbols = nearly(rng, counts)
    bonds = [(k, k + 1) for k in range(1, len(symbols))] if rng.random() < 0.3 else ()
    if choice < 0.1 or choice > 0.9:
        symbols.insert(rng.randrange(len(symbols) + 1), rng.choice(OTHERS))
        bonds = ()
    if choice < 0.55:
        return record(symbols, items_around(rng, text), bonds, end)
    if choice < 0.7:
        text = rng.choice(NO_FORMULA)
    elif choice < 0.78:
        text = rng.choice(DEEP)
    elif choice < 0.86:
        text = rng.choice(HIGH)
    elif choice < 0.9:
        return record(symbols, rng.choice([[], [(b"FORMULAS", [text])], [(b"LOT", [text])], [(b"FORMUL", [text])]]), bonds, end)
    else:
        at = rng.randrange(len(text) + 1)
        text = text[:at] + rng.choice([b"(", b")", b"0", b"1", b"2", b"9", b"C", b"c", b"o", b" "]) + text[at + rng.randrange(2):]
    return record(symbols, items_around(rng, text.strip(b" ") and text or b"c"), bonds, end)


def fixed_records():
    """Every text of the lists above, symbols that no formula has, and items that are missing or empty."""
    for text in NO_FORMULA + GOOD + DEEP + HIGH:
        yield sent(text)
    for other in OTHERS:
        for text in (b"C", b"(C)2(O)", b"c", DEEP[0], HIGH[0]):
            yield sent(text, (b"C", other))
    yield record(OTHERS, [])
    for atoms in ((), (b"C",), (b"Co",), (b"C", b"O"), (b"H", b"C", b"O", b"H"), (b"Os",), (b"O", b"Ca", b"O")):
        for text in (b"CO", b"Co", b"Ca(OH)2"):
            yield sent(text, atoms)
    for items in ([], [(b"FORMULA", [])], [(b"FORMULA", []), (b"FORMULA", [b"C"])], [(b"FORMULA", [b"C", b"c"])],
            [(b"FORMULA", [b"c", b"C"])],
                  [(b"formula", [b"C"])], [(b"FORMULA ", [b"C"])], [(b" FORMULA", [b"C"])], [(b"FORMULAR", [b"C"])], [(b"FORMUL", [b"C"])],
                  [(b"Formula", [b"C"])], [(b"LOT", [b"C"])], [(b"F", [b"C"]), (b"FORMULA", [b"C2"])],
                  [(b"FORMULA", [b"C2"]), (b"FORMULA", [b"C"])]):
        yield record((b"C",), items)
    yield sent("".join(NAMES[:60]).encode(), [name.encode() for name in NAMES[60:]])
