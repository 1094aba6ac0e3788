"""Tests of writing by hand: rooms, refusals in their order, and the canonical text itself."""

from ctfile import read_record
from expect import expect
from limit import LIMIT
from samples import FILL, SAMPLE, read, tables
from writer import write_catalogue, write_record


def rooms():
    for atoms, bonds in ((LIMIT - 1, LIMIT), (LIMIT, LIMIT - 1), (0, 0)):
        a, b = tables(atoms, bonds)
        expect("2", read_record(1, SAMPLE, a, b), ("refused", 2, 0, 0))
        expect("1 before 2", read_record(7, SAMPLE, a, b), ("refused", 1, 0, 0))
        expect("2 on writing", write_record(a, b, LIMIT + 1, 0, 0, b"", b"", bytearray()),
               ("refused", 2, 0, 0))
        expect("2 on a catalogue", write_catalogue(b"\x00\n", a, b, bytearray()),
               ("refused", 2, 0, 0))
        expect("2 leaves the tables", (a, b), tables(atoms, bonds))


def writing():
    _, atoms, bonds = read(SAMPLE)
    head, items = SAMPLE[:17], SAMPLE[244:260]

    def write(want, header=head, data=items, n=2, m=1, chiral=0, size=265, change=None):
        a, b = list(atoms), list(bonds)
        for table, place, value in change or ():
            (a if table == "a" else b)[place] = value
        room = bytearray(b"\xa5" * size)
        got = write_record(a, b, n, m, chiral, header, data, room)
        expect("writing", got, want)
        expect("a refusal writes nothing", got[0] == "accepted" or set(room) <= {0xa5}, True)
        return bytes(room)

    expect("room past the text", write(("accepted", 265), size=300)[265:], b"\xa5" * 35)
    write(("refused", 20, 0, 0), size=264)
    for wrong in (dict(n=LIMIT + 1), dict(m=2), dict(n=1, m=1), dict(chiral=2), dict(n=0)):
        write(("refused", 21, 0, 0), **wrong)
    for place, value in ((0, 10 ** 9), (1, -10 ** 8), (3, 0), (3, 123), (4, 5), (5, 16), (6, 4),
                         (7, 1000), (7, -1), (8, 4), (9, 6), (10, 2), (11, 16), (12, 2), (13, 3),
                         (14, 3), (15, -1)):
        write(("refused", 21, 0, 0), change=[("a", place, value)])
    for place, value in ((0, 0), (0, 2), (1, 3), (2, 9), (3, 3), (4, 3), (5, 3)):
        write(("refused", 21, 0, 0), change=[("b", place, value)])
    write(("refused", 21, 0, 0), change=[("a", 4, 1), ("a", 23, 18)])
    write(("accepted", 283), change=[("a", 23, 18)], size=283)
    write(("accepted", 265), change=[("a", 40, -5), ("b", 6, 9)])
    write(("refused", 21, 0, 0), header=b"", data=b"x", size=0, n=LIMIT + 1)
    for header, number, line, column in (
            (b"", 19, 1, 1), (b"a\n\n", 19, 3, 1), (b"a\n\nx", 19, 3, 1), (head + b"x", 19, 4, 1),
            (head + b"\n", 18, 4, 1), (head + b"\t\n", 4, 4, 1), (head + b"x" * 81 + b"\n", 3, 4, 81),
            (b"$RXN\n\n\n", 5, 1, 1), (b"\n" + b"x" * 81 + b"\n", 3, 2, 81)):
        write(("refused", number, line, column), header=header, data=b"bad\n", size=0)
    for data, number, line, column in (
            (b"$$$$\n", 16, 1, 1), (items + b"$$$$\n", 16, 4, 1), (b"\n", 16, 1, 1),
            (b">  <A>\n", 19, 2, 1), (b">  <A>\n\nx", 19, 3, 1), (b">  <A>\n$$$$\n", 17, 2, 1),
            (b">  <A>\nv\n> <B>\n", 17, 3, 1), (items + b" " * 81 + b"\n", 3, 4, 81)):
        write(("refused", number, line, column), data=data, size=0)
    loose = b"> <LOT>  \r\n00417\r\n   \r\n"
    expect("canonical items", write(("accepted", 265), data=loose), SAMPLE)
    expect("canonical header", write(("accepted", 265), header=head.replace(b"\n", b"\r\n")), SAMPLE)
    write(("accepted", 249), data=b"")


def catalogues():
    for data, size, want in ((b"", 0, ("accepted", 0)), (SAMPLE * 2, 530, ("accepted", 530)),
                             (SAMPLE * 2, 529, ("refused", 20, 0, 0)),
                             (SAMPLE + b"\n", 0, ("refused", 19, 15, 1))):
        atoms, bonds = tables(LIMIT + 1, LIMIT)
        room = bytearray(b"\xa5" * size)
        expect("catalogue", write_catalogue(data, atoms, bonds, room), want)
        expect("catalogue's room", bytes(room), data if want[0] == "accepted" else b"\xa5" * size)
        expect("work tables", (atoms, bonds), ([0] * (16 * LIMIT) + [FILL] * 16, [0] * (6 * LIMIT)))


CANONICAL = b"""t

 x
 10  2  0  0  1  0  0  0  0  0999 V2000
99999.9999-9999.9999    0.0001 LP  0  3  3  5  1 15  1  0  0 10  2  1
   -0.0001    1.0000  -10.5000 *   0  0  0  0  0  0  0  0  0  0  0  0
    0.0000    0.0000    0.0000 Og  0  4  0  0  0  0  0  0  0  0  0  0
    0.0000    0.0000    0.0000 C   0  0  0  0  0  0  0  0  0  0  0  0
    0.0000    0.0000    0.0000 C   0  0  0  0  0  0  0  0  0  0  0  0
    0.0000    0.0000    0.0000 C   0  7  0  0  0  0  0  0  0  0  0  0
    0.0000    0.0000    0.0000 C   0  1  0  0  0  0  0  0  0  0  0  0
    0.0000    0.0000    0.0000 C   0  2  0  0  0  0  0  0  0  0  0  0
    0.0000    0.0000    0.0000 C   0  5  0  0  0  0  0  0  0  0  0  0
    0.0000    0.0000    0.0000 C   0  6  0  0  0  0  0  0  0  0  0  0
 10  1  2  3  0  2 -1
  2 10  8  0  0  0 13
M  CHG  8   1   1   2   1   5   4   6  -3   7   3   8   2   9  -1  10  -2
M  RAD  3   2   2   3   2   4   1
M  ISO  2   3   1  10 999
M  END
>  <a b>

>  <N>
 v  
w

$$$$
"""
# x, y, z, symbol, mass difference, charge, radical, isotope, and the eight that follow
CANONICAL_ATOMS = [
    (999999999, -99999999, 1, 122, 0, 1, 0, 0, 3, 5, 1, 15, 1, 10, 2, 1),
    (-1, 10000, -105000, 121, 0, 1, 2, 0) + (0,) * 8, (0, 0, 0, 118, 0, 0, 2, 1) + (0,) * 8,
    (0, 0, 0, 6, 0, 0, 1, 0) + (0,) * 8, (0, 0, 0, 6, 0, 4, 0, 0) + (0,) * 8,
    (0, 0, 0, 6, 0, -3, 0, 0) + (0,) * 8, (0, 0, 0, 6, 0, 3, 0, 0) + (0,) * 8,
    (0, 0, 0, 6, 0, 2, 0, 0) + (0,) * 8, (0, 0, 0, 6, 0, -1, 0, 0) + (0,) * 8,
    (0, 0, 0, 6, 0, -2, 0, 999) + (0,) * 8]
CANONICAL_BONDS = [(10, 1, 2, 3, 2, -1), (2, 10, 8, 0, 0, 13)]


def canonical_text():
    """Every kind of line as it must be written, byte for byte."""
    atoms, bonds = tables()
    atoms[:160] = [number for row in CANONICAL_ATOMS for number in row]
    bonds[:12] = [number for row in CANONICAL_BONDS for number in row]
    items = b">    <a b>   \n   \n> <N>\r\n v  \r\nw\n\r\n"
    room = bytearray(len(CANONICAL))
    got = write_record(atoms, bonds, 10, 2, 1, b"t\n\r\n x\n", items, room)
    expect("canonical text", (got, bytes(room)), (("accepted", len(CANONICAL)), CANONICAL))
    back, back_atoms, back_bonds = read(CANONICAL)
    expect("canonical read", (back[:5], back_atoms[:160], back_bonds[:12]),
           (("accepted", 10, 2, 1, len(CANONICAL)), atoms[:160], bonds[:12]))
    atoms[16 * 3 + 5] = -15             # nine charges: one goes to a second line
    atoms[4] = 1                        # a mass difference beside isotopes isn't writable
    expect("mass beside isotope", write_record(atoms, bonds, 10, 2, 1, b"\n\n\n", b"", room)[1], 21)
    atoms[4] = 0
    room = bytearray(2000)
    write_record(atoms, bonds, 10, 2, 1, b"\n\n\n", b"", room)
    lines = [line for line in bytes(room).split(b"\n") if line.startswith(b"M  CHG")]
    expect("eight a line", lines, [
        b"M  CHG  8   1   1   2   1   4 -15   5   4   6  -3   7   3   8   2   9  -1",
        b"M  CHG  1  10  -2"])


def mass_differences():
    """Without isotopes they are written, two columns wide."""
    _, atoms, bonds = read(SAMPLE)
    room = bytearray(265)
    for value, text in ((-3, b"C  -3"), (4, b"C   4"), (0, b"C   0")):
        atoms[4] = value
        write_record(atoms, bonds, 2, 1, 0, SAMPLE[:17], SAMPLE[244:260], room)
        expect("mass difference", bytes(room).split(b"\n")[4][31:36], text)


ALL = [rooms, writing, catalogues, canonical_text, mass_differences]
