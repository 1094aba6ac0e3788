"""Good files from a seed, each with the reading it must give.

    python3 generate.py SEED N DIRECTORY     writes N files, good and damaged ones mixed

A draft is a record before it is spelled. The same number can be spelled in several ways (leading
zeros, all spaces for zero, `-0`, `+1`, at the left of its field), and every way is used.
"""

import os
import random
import sys

from limit import LIMIT

ELEMENTS = (
    "H He Li Be B C N O F Ne Na Mg Al Si P S Cl Ar K Ca Sc Ti V Cr Mn Fe Co Ni Cu Zn Ga Ge As Se Br "
    "Kr Rb Sr Y Zr Nb Mo Tc Ru Rh Pd Ag Cd In Sn Sb Te I Xe Cs Ba La Ce Pr Nd Pm Sm Eu Gd Tb Dy Ho "
    "Er Tm Yb Lu Hf Ta W Re Os Ir Pt Au Hg Tl Pb Bi Po At Rn Fr Ra Ac Th Pa U Np Pu Am Cm Bk Cf Es "
    "Fm Md No Lr Rf Db Sg Bh Hs Mt Ds Rg Cn Nh Fl Mc Lv Ts Og A Q * LP").split()

COORDINATES = [0, 1, -1, 9999, -9999, 10000, 12500, -8250, 999_999_999, -99_999_999, 99_999_999]
STEREO = {1: [0, 1, 4, 6], 2: [0, 3]}
CENTRES = [-1, 0, 1, 2, 4, 5, 8, 9, 12, 13]
CHARGES = [0, 3, 2, 1, 0, -1, -2, -3]         # by charge code
NUMBERS = {"CHG": (-15, 15), "RAD": (0, 3), "ISO": (1, 999)}
ATOM_TOPS = [("parity", 3), ("hydrogens", 5), ("care", 1), ("valence", 15), ("h0", 1)]
NAMES = [b"A", b"LOT", b"a b", b" ", b"$$$$", b"=" * 30, b"B 7 " * 7 + b"..", b"M  END", b"LOT2"]
VALUES = [b"00417", b">98%", b"> <A", b"><A>", b">  <>", b">  <A> x", b">  <A<B>", b" > <A>",
          b">  <" + b"n" * 31 + b">", b"$$$", b" $$$$", b"$ $$$", b"M  END", b"x  ", b"-",
          b">  <A>" + b" " * 75, b">" + b" " * 76 + b"<AB>", b"v" * 200, b" " * 199 + b"."]
TITLES = [b"", b"AB-00417", b"$$$", b"$MD", b"$RXM $RDFIL", b" ", b"t" * 80, b"x  ", b"~!@"]
OTHERS = [b"", b"drum 3", b"$$$$", b"$RXN", b"o" * 80, b"  "]


class Row:
    """A line to be: the place it stands in, its text, and the draft it belongs to."""

    def __init__(self, place, text, draft=None, index=0):
        self.place, self.text, self.draft, self.index = place, text, draft, index


class Draft:
    """A record before spelling. `properties` are (tag, entries) in file order."""

    def __init__(self):
        self.header = [b"", b"", b""]
        self.chiral, self.atoms, self.bonds, self.properties, self.items = 0, [], [], [], []

    @property
    def n(self):
        return len(self.atoms)

    def listed(self, tag):
        """Atom to number for a property, or None if no line names it."""
        lines = [entries for t, entries in self.properties if t == tag]
        return {a: v for entries in lines for a, v in entries} if lines else None

    def truth(self):
        """The reading that a record spelled from this draft has."""
        charges, radicals, isotopes = map(self.listed, ("CHG", "RAD", "ISO"))
        if charges is None and radicals is None:    # codes count only where neither kind has a line
            charges = {k: CHARGES[a["code"]] for k, a in enumerate(self.atoms, 1)}
            radicals = {k: 2 for k, a in enumerate(self.atoms, 1) if a["code"] == 4}
        atoms = []
        for k, a in enumerate(self.atoms, 1):
            charge, radical = (charges or {}).get(k, 0), (radicals or {}).get(k, 0)
            mass = a["mass"] if isotopes is None else 0
            isotope = 0 if isotopes is None else isotopes.get(k, 0)
            atoms.append((*a["xyz"], a["symbol"], mass, charge, radical, isotope, a["parity"],
                          a["hydrogens"], a["care"], a["valence"], a["h0"], a["map"],
                          a["inversion"], a["exact"]))
        return (tuple(self.header), self.n, len(self.bonds), self.chiral, tuple(atoms),
                tuple(map(tuple, self.bonds)), tuple((n, tuple(v)) for n, v in self.items))


def some(rng, top, often_zero=0.6):
    return 0 if rng.random() < often_zero else rng.randrange(top + 1)


def draft_atom(rng, n):
    atom = {name: some(rng, top) for name, top in ATOM_TOPS}
    atom["xyz"] = [rng.choice(COORDINATES) if rng.random() < 0.7
                   else rng.randrange(-99_999_999, 1_000_000_000) for _ in range(3)]
    atom["symbol"] = rng.randrange(1, 123)
    atom["mass"] = some(rng, 7, 0.7) - 3 if rng.random() < 0.3 else 0
    atom["code"], atom["map"] = some(rng, 7), some(rng, n)
    atom["inversion"], atom["exact"] = some(rng, 2), some(rng, 1)
    return atom


def draft_bonds(rng, n, m):
    """m bonds over different pairs, in either direction."""
    pairs, bonds = set(), []
    while len(bonds) < m:
        a, b = rng.randrange(1, n + 1), rng.randrange(1, n + 1)
        if a == b or (min(a, b), max(a, b)) in pairs:
            continue
        pairs.add((min(a, b), max(a, b)))
        kind = rng.randrange(1, 9)
        bonds.append([a, b, kind, rng.choice(STEREO.get(kind, [0])), some(rng, 2),
                      rng.choice(CENTRES)])
    return bonds


def draft_lines(rng, n, tag, low, high):
    """Lines of one kind, of one to eight entries each, for some of the atoms."""
    lines, atoms = [], rng.sample(range(1, n + 1), rng.randrange(1, n + 1))
    while atoms:
        size = rng.choice([1, 2, 8, 8])
        now, atoms = atoms[:size], atoms[size:]
        lines.append((tag, [(a, rng.randrange(low, high + 1)) for a in now]))
    return lines


def draft_properties(rng, n):
    """The kinds may stand in any order and come again."""
    lines = []
    for tag, (low, high) in NUMBERS.items():
        if n > 0 and rng.random() >= 0.5:
            lines += draft_lines(rng, n, tag, low, high)
    rng.shuffle(lines)
    return lines


def codes_beside_one_kind(rng, draft):
    """A code on every atom, and lines of charges alone or of radicals alone, at times only zeros."""
    tag = rng.choice(["CHG", "RAD"])
    low, high = rng.choice([NUMBERS[tag], NUMBERS[tag], (0, 0)])
    for atom in draft.atoms:
        atom["code"] = rng.randrange(1, 8)
    isotopes = [line for line in draft.properties if line[0] == "ISO"]
    draft.properties = isotopes + draft_lines(rng, draft.n, tag, low, high)
    rng.shuffle(draft.properties)


def draft_record(rng, n=None, m=None, items=None):
    draft = Draft()
    n = rng.choice([0, 1, 1, 2, 2, 3, 4]) if n is None else n
    most = min(LIMIT, n * (n - 1) // 2)
    draft.header = [rng.choice(TITLES), rng.choice(OTHERS), rng.choice(OTHERS)]
    draft.chiral = rng.randrange(2)
    draft.atoms = [draft_atom(rng, n) for _ in range(n)]
    draft.bonds = draft_bonds(rng, n, rng.randrange(min(most, 6) + 1) if m is None else m)
    draft.properties = draft_properties(rng, n)
    if n > 0 and rng.random() < 0.2:
        codes_beside_one_kind(rng, draft)
    for _ in range(rng.choice([0, 1, 1, 2, 3]) if items is None else items):
        values = [rng.choice(VALUES) for _ in range(rng.choice([0, 1, 1, 2]))]
        draft.items.append((rng.choice(NAMES), values))
    return draft


def integer(rng, value, width, signed=False):
    """One of the good spellings of a number in a field."""
    if value == 0 and rng.random() < 0.2:
        return " " * width
    digits, sign = str(abs(value)), "-" if value < 0 else ""
    if signed and value >= 0 and len(digits) < width and rng.random() < 0.2:
        sign = "+" if value else rng.choice("-+")
    if rng.random() < 0.1:
        digits = digits.zfill(rng.randrange(len(digits), width - len(sign) + 1))
    return aligned(rng, sign + digits, width)


def aligned(rng, text, width):
    """The text at the right of its columns, at times at the left or between."""
    spare = width - len(text)
    before = rng.randrange(spare + 1) if rng.random() < 0.08 else spare
    return (" " * before + text).ljust(width)


def coordinate(rng, value):
    if value == 0 and rng.random() < 0.2:
        return " " * 10
    whole, part = divmod(abs(value), 10000)
    sign = "-" if value < 0 or (value == 0 and rng.random() < 0.2) else ""
    whole = str(whole)
    if rng.random() < 0.1:
        whole = whole.zfill(rng.randrange(len(whole), 6 - len(sign)))
    return "%s.%04d" % ((sign + whole).rjust(5), part)


def unread(rng, width):
    """Columns that are not read hold anything printable."""
    if rng.random() < 0.7:
        return " " * width
    return "".join(chr(rng.randrange(32, 127)) for _ in range(width))


def loose_end(rng, text):
    """Spaces at the end of a line with columns may be missing or too many."""
    text = text.encode() if isinstance(text, str) else text
    choice = rng.random()
    if choice < 0.2:
        return text.rstrip(b" ")
    return text.ljust(rng.randrange(len(text), 81)) if choice < 0.3 else text


def counts_line(rng, d):
    return "".join([integer(rng, d.n, 3), integer(rng, len(d.bonds), 3), integer(rng, 0, 3),
                    unread(rng, 3), integer(rng, d.chiral, 3), integer(rng, 0, 3),
                    unread(rng, 15), " V2000"])


def atom_line(rng, a):
    names = ["code", "parity", "hydrogens", "care", "valence", "h0"]
    return ("".join(coordinate(rng, v) for v in a["xyz"]) + " "
            + ELEMENTS[a["symbol"] - 1].ljust(3) + integer(rng, a["mass"], 2, True)
            + "".join(integer(rng, a[name], 3) for name in names) + unread(rng, 6)
            + "".join(integer(rng, a[name], 3) for name in ("map", "inversion", "exact")))


def bond_line(rng, b):
    return ("".join(integer(rng, v, 3) for v in b[:4]) + unread(rng, 3)
            + integer(rng, b[4], 3) + integer(rng, b[5], 3, True))


def property_line(rng, tag, entries):
    return "M  " + tag + integer(rng, len(entries), 3) + "".join(
        " " + integer(rng, a, 3) + " " + integer(rng, v, 3, tag == "CHG") for a, v in entries)


def item_rows(rng, name, values):
    gap = b" " * rng.choice([1, 2, 2, 2, 46])
    yield Row("header", loose_end(rng, b">" + gap + b"<" + name + b">"))
    for value in values:
        yield Row("value", value)
    yield Row("blank", b" " * rng.choice([0, 0, 0, 1, 80, 81, 200]))


def record_rows(rng, draft, kind):
    """The draft's lines in file order, each with its place."""
    rows = [Row("title", draft.header[0]), Row("other", draft.header[1]),
            Row("other", draft.header[2]), Row("counts", loose_end(rng, counts_line(rng, draft)))]
    for k, atom in enumerate(draft.atoms):
        rows.append(Row("atom", loose_end(rng, atom_line(rng, atom)), index=k))
    for k, bond in enumerate(draft.bonds):
        rows.append(Row("bond", loose_end(rng, bond_line(rng, bond)), index=k))
    for k, (tag, entries) in enumerate(draft.properties):
        rows.append(Row("property", loose_end(rng, property_line(rng, tag, entries)), index=k))
    rows.append(Row("end", loose_end(rng, "M  END")))
    if kind == 1:
        for name, values in draft.items:
            rows += item_rows(rng, name, values)
        rows.append(Row("close", loose_end(rng, "$$$$")))
    for row in rows:
        row.draft = draft
    return rows


def file_rows(rng, drafts, kind):
    return [row for draft in drafts for row in record_rows(rng, draft, kind)]


def line_ends(rng):
    """How the lines of a file end: all LF, all CR LF, or mixed."""
    return rng.choice([[b"\n"], [b"\n"], [b"\r\n"], [b"\n", b"\r\n"]])


def to_bytes(rng, rows):
    ends = line_ends(rng)
    return b"".join(row.text + rng.choice(ends) for row in rows)


def plain_bytes(rows):
    return b"".join(row.text + b"\n" for row in rows)


def good_drafts(rng, kind, large=False):
    if large:
        return [draft_record(rng, LIMIT, LIMIT)]
    return [draft_record(rng) for _ in range(1 if kind == 0 else rng.choice([0, 1, 1, 1, 2, 3]))]


def all_symbols(rng):
    """One record in which every symbol stands."""
    draft = draft_record(rng, 122, 20)
    for k, atom in enumerate(draft.atoms):
        atom["symbol"] = k + 1
    return draft


def sized_record(rng, size, line=64):
    """A good SDfile record of exactly `size` bytes (some hundreds at least), made by its values."""
    start = plain_bytes(record_rows(rng, draft_record(rng, 2, 1, 0), 1)[:-1]) + b">  <FILL>\n"
    end = b"\n$$$$\n"
    owed = size - len(start) - len(end)
    values = [b"f" * (line - 1)] * (owed // line - 1)
    last = owed - len(values) * line            # line to 2 * line - 1 bytes, LF included
    values.append(b"f" * (last - 1))
    return start + b"".join(v + b"\n" for v in values) + end


def main(seed, count, directory):
    from damage import damaged
    rng = random.Random(seed)
    os.makedirs(directory, exist_ok=True)
    for k in range(count):
        kind = rng.randrange(2)
        if rng.random() < 0.4:
            drafts = good_drafts(rng, kind, rng.random() < 0.05)
            data = to_bytes(rng, file_rows(rng, drafts, kind))
        else:
            data = damaged(rng, kind)
        with open(os.path.join(directory, "%05d.%s" % (k, "sdf" if kind else "mol")), "wb") as out:
            out.write(data)


if __name__ == "__main__":
    main(int(sys.argv[1]), int(sys.argv[2]), sys.argv[3])
