"""Catalogues of compounds as SDfiles, from a seed: what the benchmark reads.

    python3 bench/catalogue.py SEED BYTES OUT              a realistic catalogue of at least BYTES bytes
    python3 bench/catalogue.py SEED BYTES OUT --ring N     every record one ring of N atoms and N bonds, two items
    python3 bench/catalogue.py SEED BYTES OUT --bonds M    every record 60 atoms and M bonds (59 to 999)
    python3 bench/catalogue.py SEED BYTES OUT --item L     every record 20 atoms and one item with L bytes of value lines
    ... --crlf                                             lines end in CR LF

A realistic record has 20 to 40 atoms in one piece, with rings, and 3 to 6 items. The same words give the same bytes.
Records are whole, so a file is a little longer than asked for.
"""

import argparse
import math
import random

SUPPLIERS = ["Alder Fine Chemicals", "Borrow & Hythe", "CHEMLAGER OST", "Dunmore", "Eastvik Reagents", "Fontaine SA",
             "Grau", "Harrowgate Labs", "Ishida Seiyaku", "Juniper"]
STORES = ["drum 3", "shelf B-12", "cold room 2", "cabinet 7, left", "bench", ""]
REMARKS = ["Keep dry and away from light.", "repacked 2019-03-14", "solid, off-white; melts with decomposition",
           "see sheet 88-2", "Hygroscopic. Open under nitrogen only, and close at once.", "old label reads 0417"]
FREE = {4: ["C"], 3: ["C", "C", "C", "N", "B", "P"], 2: ["C", "C", "C", "O", "N", "S", "Si", "Se"],
        1: ["C", "C", "O", "O", "N", "F", "Cl", "S", "Br", "I", "H"]}
FREE_WEIGHTS = {4: [1], 3: [60, 12, 8, 40, 1, 1], 2: [20, 20, 10, 22, 22, 5, 1, 1],
                1: [30, 12, 18, 8, 8, 9, 7, 2, 2, 1, 6]}


class Molecule:
    """A drawing that grows: places of atoms, at each the sum of bond orders and the bonds' directions, and bonds as
    (a, b, type, stereo)."""

    def __init__(self, rng):
        self.rng, self.places, self.orders, self.ways, self.bonds = rng, [], [], [], []

    def atom(self, x, y):
        self.places.append((x, y))
        self.orders.append(0)
        self.ways.append([])
        return len(self.places)

    def bond(self, a, b, kind, stereo=0):
        self.bonds.append((a, b, kind, stereo))
        (x, y), (u, v) = self.places[a - 1], self.places[b - 1]
        for end, way in (a, math.atan2(v - y, u - x)), (b, math.atan2(y - v, x - u)):
            self.orders[end - 1] += kind
            self.ways[end - 1].append(way)

    def anchor(self):
        """An atom that can take one bond more, and a direction for it, clear of its bonds if one is found soon."""
        rng = self.rng
        while True:
            a = rng.randrange(len(self.places)) + 1
            if self.orders[a - 1] < 3 or (self.orders[a - 1] == 3 and rng.random() < 0.3):
                break
        for _ in range(12):
            way = rng.randrange(12) * math.pi / 6 + rng.uniform(-0.05, 0.05)
            if all(math.cos(way - other) < 0.4 for other in self.ways[a - 1]):
                break
        return a, way

    def ring(self, size):
        """A ring of that size, alternating single and double bonds or all single, on a bond to what stands already."""
        rng, anchor, angle = self.rng, None, 0.0
        x = y = 0.0
        if self.places:
            anchor, angle = self.anchor()
            x, y = self.places[anchor - 1]
        radius = 0.7 / math.sin(math.pi / size)
        away = radius + (1.5 if anchor else 0.0)
        x, y = x + away * math.cos(angle), y + away * math.sin(angle)
        turns = [angle + math.pi + 2 * math.pi * k / size for k in range(size)]
        atoms = [self.atom(x + radius * math.cos(t), y + radius * math.sin(t)) for t in turns]
        double = rng.random() < 0.7
        for k in range(size):
            self.bond(atoms[k], atoms[(k + 1) % size], 2 if double and k % 2 and k < size - size % 2 else 1)
        if anchor:
            self.bond(anchor, atoms[0], 1)

    def twig(self):
        """One atom more."""
        rng = self.rng
        anchor, angle = self.anchor()
        x, y = self.places[anchor - 1]
        end = self.atom(x + 1.5 * math.cos(angle), y + 1.5 * math.sin(angle))
        kind = 2 if self.orders[anchor - 1] < 3 and rng.random() < 0.2 else 1
        self.bond(anchor, end, kind, rng.choice([1, 6]) if kind == 1 and rng.random() < 0.06 else 0)


def molecule(rng, size):
    mol = Molecule(rng)
    while len(mol.places) < size:
        owed = size - len(mol.places)
        if owed >= 6 and (not mol.places or rng.random() < 0.35):
            mol.ring(rng.choice([5, 6, 6, 6]))
        else:
            mol.twig() if mol.places else mol.atom(0.0, 0.0)
    return mol


def element(rng, order):
    """A symbol for an atom with that sum of bond orders, and its charge."""
    if order == 4 and rng.random() < 0.02:
        return "N", 1
    symbol = rng.choices(FREE[order], FREE_WEIGHTS[order])[0] if order else "C"
    return symbol, -1 if symbol == "O" and order == 1 and rng.random() < 0.08 else 0


def atom_line(x, y, z, symbol, charge=0):
    code = {1: 3, -1: 5}.get(charge, 0)
    return "%10.4f%10.4f%10.4f %-3s 0%3d  0  0  0  0  0  0  0  0  0  0" % (x, y, z, symbol, code)


def bond_line(a, b, kind, stereo=0):
    return "%3d%3d%3d%3d  0  0  0" % (a, b, kind, stereo)


def counts_line(n, m, chiral=0):
    return "%3d%3d  0  0%3d  0  0  0  0  0999 V2000" % (n, m, chiral)


def charge_lines(charges):
    charges = [(k, c) for k, c in enumerate(charges, 1) if c]
    for at in range(0, len(charges), 8):
        row = charges[at:at + 8]
        yield "M  CHG%3d" % len(row) + "".join(" %3d %3d" % entry for entry in row)


def drawing_lines(rng, size):
    """Counts, atoms, bonds and properties of a realistic record."""
    mol = molecule(rng, size)
    flat = rng.random() < 0.8
    kinds = [element(rng, order) for order in mol.orders]
    lines = [counts_line(size, len(mol.bonds), int(any(b[3] for b in mol.bonds)))]
    for (x, y), (symbol, charge) in zip(mol.places, kinds):
        lines.append(atom_line(x, y, 0.0 if flat else rng.uniform(-2, 2), symbol, charge))
    lines += [bond_line(*bond) for bond in mol.bonds]
    lines += charge_lines([charge for _, charge in kinds])
    if rng.random() < 0.03:
        lines.append("M  ISO  1 %3d  13" % (kinds.index(("C", 0)) + 1))
    lines.append("M  END")
    return lines


def cas_number(rng):
    """Like a CAS number, with its check digit."""
    digits = "%d%02d" % (rng.randrange(50, 999999), rng.randrange(100))
    check = sum(k * int(d) for k, d in enumerate(reversed(digits), 1)) % 10
    return "%s-%s-%d" % (digits[:-2], digits[-2:], check)


def item(name, *values):
    return [">  <%s>" % name, *values, ""]


def items(rng):
    """3 to 6 items; lot and supplier always."""
    others = [item("CAS", cas_number(rng)), item("PURITY", rng.choice([">98%", ">95%", "99.5%", "techn."])),
              item("AMOUNT_MG", "%d" % rng.choice([5, 10, 25, 100, 250, 1000])),
              item("REMARK", *rng.sample(REMARKS, rng.choice([1, 1, 2, 3])))]
    chosen = rng.sample(others, rng.randrange(1, 5))
    return item("LOT", "%05d" % rng.randrange(100000)) + item("SUPPLIER", rng.choice(SUPPLIERS)) + sum(chosen, [])


def header(rng, number):
    return ["AB-%05d" % (number % 100000), "  CAPELLA %02d%02d24%02d%02d2D" % (
        rng.randrange(1, 13), rng.randrange(1, 29), rng.randrange(24), rng.randrange(60)), rng.choice(STORES)]


def realistic(rng, number):
    return header(rng, number) + drawing_lines(rng, rng.randrange(20, 41)) + items(rng) + ["$$$$"]


def ring(n):
    def record(rng, number):
        radius = 0.75 / math.sin(math.pi / n)
        turn = rng.uniform(0, 1)
        lines = header(rng, number) + [counts_line(n, n)]
        for k in range(n):
            angle = turn + 2 * math.pi * k / n
            lines.append(atom_line(radius * math.cos(angle), radius * math.sin(angle), 0.0, "C"))
        lines += [bond_line(k, k % n + 1, 1 + k % 2 * (k < n - n % 2)) for k in range(1, n + 1)]
        return lines + ["M  END"] + item("LOT", "%05d" % rng.randrange(100000)) + item("CAS", cas_number(rng)) + ["$$$$"]
    return record


def bonds(m):
    def record(rng, number):
        lines = header(rng, number) + [counts_line(60, m)]
        for _ in range(60):
            lines.append(atom_line(rng.uniform(-9, 9), rng.uniform(-9, 9), rng.uniform(-9, 9), "C"))
        pairs = [(k, k + 1) for k in range(1, 60)]
        pairs += rng.sample([(a, b) for a in range(1, 59) for b in range(a + 2, 61)], m - 59)
        lines += [bond_line(a, b, 1) for a, b in pairs]
        return lines + ["M  END"] + item("LOT", "%05d" % rng.randrange(100000)) + ["$$$$"]
    return record


def atoms_of(symbols):
    """Records of these atoms without bonds."""
    def record(rng, number):
        lines = header(rng, number) + [counts_line(len(symbols), 0)]
        for symbol in symbols:
            lines.append(atom_line(rng.uniform(-9, 9), rng.uniform(-9, 9), 0.0, symbol))
        return lines + ["M  END"] + item("LOT", "%05d" % rng.randrange(100000)) + ["$$$$"]
    return record


def long_item(size, width=64):
    """`size` bytes of value lines, LF included, in lines of `width` and a last one of what is over."""
    letters = "".join(random.Random(size).choices("ACDEFGHIKLMNPQRSTVWY", k=2 * size))

    def record(rng, number):
        text = letters[rng.randrange(size):][:size]
        values = [text[at + 1:at + width] for at in range(0, size, width)]
        values = [value or "*" for value in values]
        return header(rng, number) + drawing_lines(rng, 20) + item("SEQUENCE", *values) + ["$$$$"]
    return record


def write(seed, size, path, record=realistic, end="\n"):
    """Records until the file has `size` bytes; answers its size."""
    rng, written, number = random.Random(seed), 0, 0
    with open(path, "wb") as out:
        while written < size:
            number += 1
            text = (end.join(record(rng, number)) + end).encode()
            out.write(text)
            written += len(text)
    return written


def main():
    words = argparse.ArgumentParser(description=__doc__, formatter_class=argparse.RawDescriptionHelpFormatter)
    words.add_argument("seed", type=int)
    words.add_argument("bytes", type=int)
    words.add_argument("out")
    shape = words.add_mutually_exclusive_group()
    shape.add_argument("--ring", type=int, choices=range(3, 1000), metavar="N")
    shape.add_argument("--bonds", type=int, choices=range(59, 1000), metavar="M")
    shape.add_argument("--item", type=int, metavar="L")
    words.add_argument("--crlf", action="store_true")
    given = words.parse_args()
    record = realistic
    if given.ring:
        record = ring(given.ring)
    elif given.bonds:
        record = bonds(given.bonds)
    elif given.item:
        record = long_item(given.item)
    write(given.seed, given.bytes, given.out, record, "\r\n" if given.crlf else "\n")


if __name__ == "__main__":
    main()
