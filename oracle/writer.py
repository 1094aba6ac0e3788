"""Canonical writing: one SDfile record from tables, a record as it stands in a file, and a whole
SDfile anew."""

from ctfile import (CODE_CHARGE, fill_table, header_lines, items_until_end, read_into, sdfile,
                    table_rooms)
from forms import CENTRES, STEREO, SYMBOLS
from limit import LIMIT
from lines import Refusal, Sheet

CHARGE_CODE = {charge: code for code, charge in CODE_CHARGE.items()}

# Ranges of the 16 atom numbers, but for the atom map, which goes up to n.
ATOM_RANGES = [range(-99_999_999, 1_000_000_000)] * 3 + [
    range(1, 123), range(-3, 5), range(-15, 16), range(4), range(1000), range(4), range(6),
    range(2), range(16), range(2), None, range(3), range(2)]
MAP = 13
MASS, CHARGE, RADICAL, ISOTOPE = 4, 5, 6, 7


def rows(table, width, count):
    return [table[k * width:(k + 1) * width] for k in range(count)]


def atom_good(atom, n):
    return all(value in (allowed or range(n + 1)) for value, allowed in zip(atom, ATOM_RANGES))


def bond_good(bond, n):
    first, second, kind, stereo, topology, centre = bond
    return (1 <= first <= n and 1 <= second <= n and first != second and 1 <= kind <= 8
            and stereo in STEREO.get(kind, (0,)) and topology in range(3) and centre in CENTRES)


def writable(atom_table, bond_table, n, m, chiral):
    """All ranges and bond rules for the first n atoms and m bonds; later places don't matter."""
    if n not in range(LIMIT + 1) or m not in range(LIMIT + 1) or 2 * m > n * (n - 1):
        return False
    if chiral not in (0, 1):
        return False
    atoms, bonds = rows(atom_table, 16, n), rows(bond_table, 6, m)
    if not all(atom_good(a, n) for a in atoms) or not all(bond_good(b, n) for b in bonds):
        return False
    if any(a[ISOTOPE] for a in atoms) and any(a[MASS] for a in atoms):
        return False
    return len({frozenset(b[:2]) for b in bonds}) == m


def coordinate_text(value):
    whole, part = divmod(abs(value), 10000)
    return ("%s%d.%04d" % ("-" if value < 0 else "", whole, part)).rjust(10)


def charge_code(charge, radical):
    if radical == 0:
        return CHARGE_CODE.get(charge, 0)
    return 4 if (charge, radical) == (0, 2) else 0


def counts_text(n, m, chiral):
    return "%3d%3d%3d%3d%3d" % (n, m, 0, 0, chiral) + "  0" * 5 + "999 V2000"


def atom_text(atom):
    tail = [charge_code(atom[CHARGE], atom[RADICAL])] + atom[8:13] + [0, 0] + atom[13:]
    return ("".join(map(coordinate_text, atom[:3])) + " " + SYMBOLS[atom[3] - 1].ljust(3)
            + "%2d" % atom[MASS] + "".join("%3d" % number for number in tail))


def bond_text(bond):
    return "".join("%3d" % number for number in bond[:4] + [0] + bond[4:])


def property_texts(tag, atoms, place):
    entries = [(k, a[place]) for k, a in enumerate(atoms, 1) if a[place]]
    for first in range(0, len(entries), 8):
        some = entries[first:first + 8]
        yield "M  %s%3d" % (tag, len(some)) + "".join(" %3d %3d" % entry for entry in some)


def record_text(header, n, m, chiral, atoms, bonds, items):
    """The canonical bytes: header and value lines keep their own bytes, the rest is made."""
    made = [counts_text(n, m, chiral)]
    made += [atom_text(a) for a in atoms] + [bond_text(b) for b in bonds]
    for tag, place in (("CHG", CHARGE), ("RAD", RADICAL), ("ISO", ISOTOPE)):
        made += property_texts(tag, atoms, place)
    made.append("M  END")
    lines = [line.text for line in header] + [text.encode() for text in made]
    for item in items:
        lines += [b">  <" + item.name + b">"] + [v.text for v in item.values] + [b""]
    return b"".join(line + b"\n" for line in lines + [b"$$$$"])


def header_part(data):
    """Exactly three header lines; a fourth is 18, an unfinished one 19."""
    sheet = Sheet(data)
    header = header_lines(sheet, 0)
    if len(sheet.lines) > 3:
        sheet.take(3)
        raise Refusal(18, 4, 1)
    if sheet.unfinished:
        raise sheet.cut_short()
    return header


def items_part(data):
    sheet = Sheet(data)
    items, _ = items_until_end(sheet, 0, ends=False)
    if sheet.unfinished:
        raise sheet.cut_short()
    return items


def put(room, text):
    """Text into the front of the room, if all of it fits."""
    if len(room) < len(text):
        raise Refusal(20)
    room[:len(text)] = text
    return ("accepted", len(text))


def write_record(atom_table, bond_table, n, m, chiral, header, items, room):
    """("accepted", length) with the text in `room` (a bytearray), or the refusal."""
    try:
        if min(table_rooms(atom_table, bond_table)) < LIMIT:
            raise Refusal(2)
        if not writable(atom_table, bond_table, n, m, chiral):
            raise Refusal(21)
        head, data_items = header_part(header), items_part(items)
        return put(room, record_text(head, n, m, chiral, rows(atom_table, 16, n),
                                     rows(bond_table, 6, m), data_items))
    except Refusal as refusal:
        return refusal.answer()


def text_of(record):
    """The canonical bytes of a record that was read; a molfile's has no items and ends in `$$$$` too."""
    return record_text(record.header, record.n, record.m, record.chiral, record.atoms, record.bonds,
                       record.items)


def copy_record(kind, data, atom_table, bond_table, room):
    """("accepted", bytes and lines of the record in the file, length of its canonical text) or the
    refusal; the tables are left as reading the record leaves them."""
    try:
        record = read_into(kind, data, atom_table, bond_table)
        _, length = put(room, text_of(record))
        return ("accepted", record.length, record.lines_used, length)
    except Refusal as refusal:
        return refusal.answer()


def catalogue_text(data):
    """The canonical bytes of a whole SDfile."""
    return b"".join(map(text_of, sdfile(Sheet(data))))


def write_catalogue(data, atom_table, bond_table, room):
    """("accepted", length) or the refusal; the work tables end zero, except after 2."""
    if min(table_rooms(atom_table, bond_table)) < LIMIT:
        return Refusal(2).answer()
    fill_table(atom_table, 16, [])
    fill_table(bond_table, 6, [])
    try:
        return put(room, catalogue_text(data))
    except Refusal as refusal:
        return refusal.answer()
