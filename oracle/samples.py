"""A sample record with a line of every kind, small edits of it, a record with every charge code, and records of short lines."""

from ctfile import read_record
from limit import LIMIT

SAMPLE = b"""AB-00417

drum 3
  2  1  0  0  0  0  0  0  0  0999 V2000
    0.0000    0.0000    0.0000 C   0  0  0  0  0  0  0  0  0  0  0  0
    1.2500   -0.8250    0.0000 O   0  5  0  0  0  0  0  0  0  0  0  0
  1  2  1  0  0  0  0
M  CHG  1   2  -1
M  END
>  <LOT>
00417

$$$$
"""
LINES = SAMPLE.split(b"\n")[:-1]
MOLFILE = SAMPLE[:244]
FILL = 77                           # what tables hold before a reading


def edit(line=None, text=None, column=None, drop=None):
    """The sample with one line replaced, written over from a column, or dropped."""
    lines = list(LINES)
    if drop:
        del lines[drop - 1]
    elif column:
        old = lines[line - 1].ljust(column - 1)
        lines[line - 1] = old[:column - 1] + text + old[column - 1 + len(text):]
    elif line:
        lines[line - 1] = text
    return b"".join(l + b"\n" for l in lines)


def coded(*properties):
    """A record whose eight atoms have the codes 0 to 7 and mass difference 1, with these property lines."""
    rows = [b"", b"", b"", b"  8  0".ljust(33) + b" V2000"]
    rows += [b" " * 31 + b"C   1%3d" % code for code in range(8)]
    return b"".join(row + b"\n" for row in rows + [*properties, b"M  END", b"$$$$"])


def bare(atoms, pairs):
    """A record of short lines: so many carbons, and single bonds between these pairs."""
    rows = [b"", b"", b"", b"%3d%3d".ljust(33) % (atoms, len(pairs)) + b" V2000"]
    rows += [b" " * 31 + b"C"] * atoms + [b"%3d%3d  1" % tuple(pair) for pair in pairs]
    return b"".join(row + b"\n" for row in rows + [b"M  END", b"$$$$"])


def ring(size):
    """The pairs of a ring of atoms 1 to that size."""
    return [(k, k % size + 1) for k in range(1, size + 1)]


def tables(atoms=LIMIT, bonds=LIMIT, fill=FILL):
    return [fill] * (16 * atoms), [fill] * (6 * bonds)


def read(data, kind=1):
    atoms, bonds = tables()
    return read_record(kind, data, atoms, bonds), atoms, bonds
