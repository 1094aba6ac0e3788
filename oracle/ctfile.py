"""An independent reading of V2000 molfiles (kind 0) and SDfiles (kind 1): check, read, fetch.

A record is taken as slices of the file's lines: the counts line says how long the atom and bond
slices are, and every slice has a whole-line pattern (forms.py). A bad line raises a Refusal.
"""

from forms import (ATOM, BLANK, BOND, COUNTS, Complaint, END, ENTRY_COUNT, PROPERTY_TAG,
                   RECORD_END, RESERVED, header_name, property_form)
from limit import LIMIT
from lines import Refusal, Sheet

MOLFILE, SDFILE = 0, 1
CODE_CHARGE = {1: 3, 2: 2, 3: 1, 5: -1, 6: -2, 7: -3}


class Context:
    """What a line's judgement may ask about the record around it."""

    def __init__(self, n, listed=()):
        self.n, self.listed = n, listed


class Item:
    """A data item: its name and its value lines."""

    def __init__(self, name, values):
        self.name, self.values = name, values

    def stretch(self):
        return (self.values[0].start, self.values[-1].end) if self.values else (0, 0)


class Record:
    """What one record says, and where its parts stand in the caller's bytes."""

    n = m = chiral = 0
    header = atoms = bonds = items = ()
    lines_used = 0
    length = header_end = items_start = items_end = 0

    def answer(self):
        return (self.n, self.m, self.chiral, self.length,
                0, self.header_end, self.items_start, self.items_end)

    def reading(self):
        """What the record says, without places in the bytes."""
        return (tuple(line.text for line in self.header), self.n, self.m, self.chiral,
                tuple(map(tuple, self.atoms)), tuple(map(tuple, self.bonds)),
                tuple((i.name, tuple(v.text for v in i.values)) for i in self.items))


def judge(form, sheet, index, ctx=None):
    """Line `index` by its form, with the line added to a complaint."""
    text = sheet.take(index).text
    try:
        return form.judge(text, ctx)
    except Complaint as complaint:
        number, column = complaint.args
        raise Refusal(number, index + 1, column) from None


def header_lines(sheet, first):
    lines = []
    for k in range(3):
        lines.append(sheet.take(first + k))
        if k == 0 and RESERVED.search(lines[0].text):
            raise Refusal(5, first + 1, 1)
    return lines


def bond_lines(sheet, first, m, ctx):
    """Bond lines as values; a pair is unordered, so it is kept as a frozenset."""
    bonds, pairs = [], set()
    for index in range(first, first + m):
        bond = judge(BOND, sheet, index, ctx)
        pair = frozenset((bond["first"], bond["second"]))
        if len(pair) == 1:
            raise Refusal(10, index + 1, 1)
        if pair in pairs:
            raise Refusal(11, index + 1, 1)
        pairs.add(pair)
        bonds.append(bond)
    return bonds


def property_lines(sheet, first, n):
    """Atom numbers to values for each property seen, and the index of the line after `M  END`."""
    found, index = {}, first
    while True:
        kind = judge(PROPERTY_TAG, sheet, index)["tag"][3:]
        if kind == b"END":
            judge(END, sheet, index)
            return found, index + 1
        entries = judge(ENTRY_COUNT, sheet, index)["entries"]
        listed = found.setdefault(kind, {})
        values = judge(property_form(kind, entries), sheet, index, Context(n, listed))
        for k in range(entries):
            listed[values["atom%d" % k]] = values["number%d" % k]
        index += 1


def items_until_end(sheet, index, ends=True):
    """Items from line `index`. With `ends`, up to and past the `$$$$` line; without (the writer's
    part), to the end of the bytes, and a `$$$$` line is 16."""
    items = []
    while ends or index < len(sheet.lines):
        text = sheet.take(index).text
        if ends and RECORD_END.fullmatch(text):
            return items, index + 1
        name = header_name(text)
        if name is None:
            raise Refusal(16, index + 1, 1)
        values = value_lines(sheet, index + 1)
        items.append(Item(name, values))
        index += 1 + len(values) + 1
    return items, index


def value_lines(sheet, index):
    values = []
    while True:
        line = sheet.take(index, 200)
        if BLANK.fullmatch(line.text):
            return values
        if line.text.startswith(b"$$$$") or header_name(line.text) is not None:
            raise Refusal(17, index + 1, 1)
        values.append(line)
        index += 1


def atom_numbers(atom, number, found):
    """The 16 numbers of an atom, by the meaning of codes and property lines."""
    code = atom["code"]
    charge = CODE_CHARGE.get(code, 0)
    radical = 2 if code == 4 else 0
    mass, isotope = atom["mass"], 0
    if b"CHG" in found or b"RAD" in found:      # a line of either kind voids all codes of the record
        charge = found.get(b"CHG", {}).get(number, 0)
        radical = found.get(b"RAD", {}).get(number, 0)
    if b"ISO" in found:
        mass, isotope = 0, found[b"ISO"].get(number, 0)
    return [atom["x"], atom["y"], atom["z"], atom["symbol"], mass, charge, radical, isotope,
            atom["parity"], atom["hydrogens"], atom["care"], atom["valence"], atom["h0"],
            atom["map"], atom["inversion"], atom["exact"]]


def bond_numbers(bond):
    return [bond[name] for name in ("first", "second", "type", "stereo", "topology", "centre")]


def record_front(sheet, first):
    """The record whose first line has index `first`, but for its items, and the index of the line
    after its `M  END`."""
    record = Record()
    record.header = header_lines(sheet, first)
    counts = judge(COUNTS, sheet, first + 3)
    record.n, record.m, record.chiral = counts["n"], counts["m"], counts["chiral"]
    ctx = Context(record.n)
    first_atom = first + 4
    first_bond = first_atom + record.n
    atoms = [judge(ATOM, sheet, index, ctx) for index in range(first_atom, first_bond)]
    bonds = bond_lines(sheet, first_bond, record.m, ctx)
    found, after = property_lines(sheet, first_bond + record.m, record.n)
    record.atoms = [atom_numbers(a, k, found) for k, a in enumerate(atoms, 1)]
    record.bonds = [bond_numbers(b) for b in bonds]
    return record, after


def record_at(sheet, first, kind):
    """The record whose first line has index `first`; places count from that line's first byte."""
    origin = sheet.starts_at(first)
    record, after = record_front(sheet, first)
    record.header_end = sheet.starts_at(first + 3) - origin
    record.items_start = record.items_end = sheet.starts_at(after) - origin
    if kind == SDFILE:
        record.items, after = items_until_end(sheet, after)
        record.items_end = sheet.starts_at(after - 1) - origin
    record.lines_used = after - first
    record.length = sheet.starts_at(after) - origin
    return record


def molfile(sheet):
    """The one record of a molfile; nothing may follow it."""
    record = record_at(sheet, 0, MOLFILE)
    if record.lines_used < len(sheet.lines):
        sheet.take(record.lines_used)          # 3 and 4 come before 18
        raise Refusal(18, record.lines_used + 1, 1)
    if sheet.unfinished:
        raise sheet.cut_short()
    return record


def sdfile(sheet):
    """All records of an SDfile, in order."""
    records, first = [], 0
    while first < len(sheet.lines):
        records.append(record_at(sheet, first, SDFILE))
        first += records[-1].lines_used
    if sheet.unfinished:
        raise sheet.cut_short()
    return records


def one_record(kind, data):
    """The record at the start of `data`: all the bytes for kind 0, up to its `$$$$` for kind 1."""
    sheet = Sheet(data)
    return molfile(sheet) if kind == MOLFILE else record_at(sheet, 0, SDFILE)


def check(kind, data):
    try:
        if kind not in (MOLFILE, SDFILE):
            raise Refusal(1)
        sheet = Sheet(data)
        records = [molfile(sheet)] if kind == MOLFILE else sdfile(sheet)
        return ("accepted", len(records))
    except Refusal as refusal:
        return refusal.answer()


def table_rooms(atom_table, bond_table):
    """How many atoms and bonds fit into flat tables."""
    return len(atom_table) // 16, len(bond_table) // 6


def fill_table(table, width, rows):
    """Rows, then zeros up to the limit; memory beyond stays."""
    flat = [number for row in rows for number in row]
    flat += [0] * (LIMIT * width - len(flat))
    table[:LIMIT * width] = flat


def read_into(kind, data, atom_table, bond_table):
    """The record at the start of `data`, its rows in the tables: flat lists of numbers, changed in
    place. A refusal leaves no rows there; 1 and 2 leave the tables alone."""
    if kind not in (MOLFILE, SDFILE):
        raise Refusal(1)
    if min(table_rooms(atom_table, bond_table)) < LIMIT:
        raise Refusal(2)
    record = Record()
    try:
        record = one_record(kind, data)
    finally:
        fill_table(atom_table, 16, record.atoms)
        fill_table(bond_table, 6, record.bonds)
    return record


def read_record(kind, data, atom_table, bond_table):
    """("accepted", n, m, chiral, length, header start, header end, items start, items end) or the
    refusal."""
    try:
        return ("accepted",) + read_into(kind, data, atom_table, bond_table).answer()
    except Refusal as refusal:
        return refusal.answer()


def pairs_searched(data, answer):
    """The pairs of bond lines that came to the search for a repeated one in a reading with that
    answer, in order: those accepted, and the repeated one itself."""
    sheet = Sheet(data)
    if answer[0] == "accepted":
        n, bonds = answer[1:3]
    else:
        _, number, line, _ = answer
        if line <= 4:
            return []
        counts = COUNTS.judge(sheet.lines[3].text)      # good, since a later line is refused
        n = counts["n"]
        bonds = min(counts["m"], max(0, line - 5 - n)) + (number == 11)
    judged = [BOND.judge(line.text, Context(n)) for line in sheet.lines[4 + n:4 + n + bonds]]
    return [frozenset((bond["first"], bond["second"])) for bond in judged]


def pairs_compared(data, answer):
    """Each pair is held against the earlier ones in order from bond 1, up to the first that is the same."""
    pairs, count = pairs_searched(data, answer), 0
    for k, pair in enumerate(pairs):
        earlier = pairs[:k]
        count += earlier.index(pair) + 1 if pair in earlier else k
    return count


def next_record(cursor, data, atom_table, bond_table):
    """The record at a cursor (bytes, lines and records of the file before it): ("record", n, m,
    chiral, length, lines, header end, items start, items end, the cursor past it), the refusal with
    its line in the file, or ("end",) where nothing is left or no file has such a cursor."""
    at, lines, records = cursor
    if min(table_rooms(atom_table, bond_table)) < LIMIT:
        return Refusal(2).answer()
    if not records <= lines <= at < len(data):
        return ("end",)
    try:
        record = read_into(SDFILE, data[at:], atom_table, bond_table)
    except Refusal as refusal:
        return ("refused", refusal.number, lines + refusal.line, refusal.column)
    after = at + record.length, lines + record.lines_used, records + 1
    return ("record", record.n, record.m, record.chiral, record.length, record.lines_used,
            record.header_end, record.items_start, record.items_end, after)


def fetch(data, name):
    """("found", start, end) of the first item of that name, or the refusal; a refused fetch hands
    back the empty stretch 0 to 0 besides."""
    try:
        record = one_record(SDFILE, data)
        named = [item for item in record.items if item.name == name]
        if not named:
            raise Refusal(22)
        return ("found",) + named[0].stretch()
    except Refusal as refusal:
        return refusal.answer()


def item_at(data, at):
    """What stands at a byte where a data header or `$$$$` must stand: ("item", name start, name end, values start, values end,
    the byte behind the blank line, lines), ("end", the byte behind the line), or the refusal; lines count from that byte."""
    sheet = Sheet(data[at:])
    try:
        line = sheet.take(0)
        if RECORD_END.fullmatch(line.text):
            return ("end", at + line.next)
        name = header_name(line.text)
        if name is None:
            raise Refusal(16, 1, 1)
        item = Item(name, value_lines(sheet, 1))
    except Refusal as refusal:
        return refusal.answer()
    start, lines = at + line.text.index(b"<") + 1, len(item.values) + 2
    values = [at + place for place in item.stretch()] if item.values else [0, 0]
    return ("item", start, start + len(name), *values, at + sheet.starts_at(lines), lines)
