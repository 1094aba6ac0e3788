"""The case file: how a case is written, read back, and answered (see docs/VECTORS.md)."""

from bond_rows import ROWS, WORDS, halves, read_with_rows
from counter import feed
from ctfile import check, fetch, item_at, next_record
from deliveries import compare_into, seven
from formula import FOUND, compare_formula
from limit import LIMIT
from mending import mend
from pieces import split_record
from scanner import replay
from suppliers import Memory, add
from tally import Tally
from writer import copy_record, write_catalogue, write_record

MODULUS = 4294967291        # the greatest prime below 2**32
FACTOR = 65599
OFFSET = 2147483649         # makes every i32 positive, and never 0
MOST_BYTES = 2_000_000      # of a block
MOST_ROOM = 131071          # bytes of lent room
SPLIT_ATOMS, SPLIT_BONDS = LIMIT * 16, LIMIT * 6


def digest(numbers):
    """A polynomial hash of numbers in the i32 range; bytes are numbers from 0 to 255."""
    value, used = 1, len(numbers)
    while used and numbers[used - 1] == 0:
        used -= 1
    for number in numbers[:used]:
        value = (value * FACTOR + number + OFFSET) % MODULUS
    power = pow(FACTOR, len(numbers) - used, MODULUS)       # the zeros that are left, all at once
    return (value * power + OFFSET * (power - 1) * pow(FACTOR - 1, -1, MODULUS)) % MODULUS


def table(room, width):
    """A table before a case: place i holds 1000003 + i."""
    return list(range(1000003, 1000003 + room * width))


def lent_room(size):
    """Room before a case: byte i holds (7 * i + 13) mod 251."""
    return bytearray((7 * i + 13) % 251 for i in range(size))


def head(*words):
    return (" ".join(map(str, words)) + "\n").encode()


def block(data):
    assert len(data) < MOST_BYTES
    return data + b"\n"


def check_case(kind, data):
    return head("check", kind, len(data)) + block(data)


def read_case(kind, atom_room, bond_room, data, row_room=LIMIT):
    return head("read", kind, atom_room, bond_room, row_room, len(data)) + block(data)


def fetch_case(name, data):
    return head("fetch", len(name), len(data)) + block(name) + block(data)


def items_case(at, data):
    return head("items", at, len(data)) + block(data)


def catalogue_case(atom_room, bond_room, room, data):
    return head("catalogue", atom_room, bond_room, room, len(data)) + block(data)


def copy_case(kind, atom_room, bond_room, room, data):
    return head("copy", kind, atom_room, bond_room, room, len(data)) + block(data)


def feed_case(records, lines, ended, room, part):
    return head("feed", records, lines, ended, room, len(part)) + block(part)


def next_case(cursor, atom_room, bond_room, data):
    return head("next", *cursor, atom_room, bond_room, len(data)) + block(data)


def formula_case(atom_room, bond_room, data):
    return head("formula", atom_room, bond_room, len(data)) + block(data)


def changes_case(rooms, list_room, old, new):
    return head("changes", *rooms, list_room, len(old), len(new)) + block(old) + block(new)


def tally_case(tally, room, data):
    first = head("tally", room, len(tally.entries), tally.missing, tally.total, len(data))
    return first + b"".join(b"%d %s\n" % (count, name) for name, count in tally.entries) + block(data)


def mend_case(room, list_room, data):
    return head("mend", room, list_room, len(data)) + block(data)


def pieces_case(kind, atom_room, bond_room, data):
    return head("pieces", kind, atom_room, bond_room, len(data)) + block(data)


def replay_case(log):
    return head("replay", len(log)) + block(log)


def write_case(n, m, chiral, rooms, atoms, bonds, header, items, room):
    first = head("write", n, m, chiral, *rooms, len(atoms), len(bonds), len(header), len(items), room)
    rows = b"".join(head(*row) for row in list(atoms) + list(bonds))
    return first + rows + block(header) + block(items)


class Reader:
    """Walks a case file from front to back, never looking back."""

    def __init__(self, data):
        self.data, self.at = data, 0

    def line(self):
        end = self.data.index(b"\n", self.at)
        text, self.at = self.data[self.at:end].decode(), end + 1
        return text.split(" ")

    def row(self):
        """A line of a number, a space and any bytes."""
        end = self.data.index(b"\n", self.at)
        number, text = self.data[self.at:end].split(b" ", 1)
        self.at = end + 1
        return int(number), text

    def block(self, size):
        text, self.at = self.data[self.at:self.at + size], self.at + size + 1
        assert len(text) == size and self.data[self.at - 1:self.at] == b"\n"
        return text

    def done(self):
        return self.at == len(self.data)


def verdict(answer):
    """The common front of an answer's line."""
    if answer[0] == "refused":
        return "refused %d line %d column %d" % answer[1:]
    return " ".join(map(str, answer))


def tables_text(atoms, bonds):
    parts = (atoms[:SPLIT_ATOMS], atoms[SPLIT_ATOMS:], bonds[:SPLIT_BONDS], bonds[SPLIT_BONDS:])
    return " atoms %d %d bonds %d %d" % tuple(map(digest, parts))


def answer_read(reader, kind, atom_room, bond_room, row_room, size):
    atoms, bonds, rows = table(atom_room, 16), table(bond_room, 6), table(row_room, WORDS)
    answer, asked = read_with_rows(kind, reader.block(size), atoms, bonds, rows)
    return (verdict(answer) + " asked %d" % asked + tables_text(atoms, bonds)
            + " rows %d %d" % (digest(halves(rows[:ROWS])), digest(halves(rows[ROWS:]))))


def answer_fetch(reader, name_size, size):
    name = reader.block(name_size)
    answer = fetch(reader.block(size), name)
    return verdict(answer) + ("" if answer[0] == "found" else " stretch 0 0")


def answer_items(reader, at, size):
    """Step after step, to the end of the record or a refusal."""
    data, told = reader.block(size), []
    while True:
        answer = item_at(data, at)
        told.append(verdict(answer))
        if answer[0] != "item":
            return " ".join(told)
        at = answer[5]


def answer_write(reader, n, m, chiral, atom_room, bond_room, atoms, bonds, header, items, room):
    atom_table, bond_table = table(atom_room, 16), table(bond_room, 6)
    for k in range(atoms):
        atom_table[16 * k:16 * k + 16] = map(int, reader.line())
    for k in range(bonds):
        bond_table[6 * k:6 * k + 6] = map(int, reader.line())
    head_bytes, item_bytes, lent = reader.block(header), reader.block(items), lent_room(room)
    answer = write_record(atom_table, bond_table, n, m, chiral, head_bytes, item_bytes, lent)
    return verdict(answer) + " room %d" % digest(lent)


def answer_catalogue(reader, atom_room, bond_room, room, size):
    atoms, bonds, lent = table(atom_room, 16), table(bond_room, 6), lent_room(room)
    answer = write_catalogue(reader.block(size), atoms, bonds, lent)
    return verdict(answer) + " room %d" % digest(lent) + tables_text(atoms, bonds)


def answer_copy(reader, kind, atom_room, bond_room, room, size):
    atoms, bonds, lent = table(atom_room, 16), table(bond_room, 6), lent_room(room)
    answer = copy_record(kind, reader.block(size), atoms, bonds, lent)
    return verdict(answer) + " room %d" % digest(lent) + tables_text(atoms, bonds)


def answer_feed(reader, records, lines, ended, room, size):
    answer = feed(records, lines, ended == 1, room, reader.block(size))
    return "more %d %d used %d" % answer[1:] if answer[0] == "more" else verdict(answer)


def answer_next(reader, at, lines, records, atom_room, bond_room, size):
    atoms, bonds = table(atom_room, 16), table(bond_room, 6)
    answer = next_record((at, lines, records), reader.block(size), atoms, bonds)
    if answer[0] == "record":
        answer = answer[:-1] + ("cursor",) + answer[-1]
    return verdict(answer) + tables_text(atoms, bonds)


def answer_formula(reader, atom_room, bond_room, size):
    atoms, bonds, found = table(atom_room, 16), table(bond_room, 6), table(1, FOUND)
    answer = compare_formula(reader.block(size), atoms, bonds, found)
    return verdict(answer) + " found %d" % digest(found) + tables_text(atoms, bonds)


def answer_pieces(reader, kind, atom_room, bond_room, size):
    atoms, bonds, lists = table(atom_room, 16), table(bond_room, 6), [table(1, LIMIT) for _ in range(3)]
    answer = split_record(kind, reader.block(size), atoms, bonds, *lists)
    return verdict(answer) + " labels %d heads %d sizes %d" % tuple(map(digest, lists)) + tables_text(atoms, bonds)


def answer_mend(reader, room, list_room, size):
    answer, text, repairs = mend(reader.block(size), room, list_room)
    lent, told = lent_room(room), table(list_room, 2)
    lent[:len(text)] = text
    told[:2 * len(repairs)] = [number for repair in repairs for number in repair]
    return verdict(answer) + " list %d room %d" % (digest(told), digest(lent))


def answer_changes(reader, old_atoms, old_bonds, new_atoms, new_bonds, list_room, old_size, new_size):
    tables = [table(old_atoms, 16), table(old_bonds, 6), table(new_atoms, 16), table(new_bonds, 6)]
    old, told = reader.block(old_size), table(list_room, 7)
    answer, found = compare_into(old, reader.block(new_size), tables, list_room)
    told[:7 * len(found)] = [number for difference in found for number in seven(difference)]
    return verdict(answer) + " list %d old%s new%s" % (digest(told), tables_text(*tables[:2]), tables_text(*tables[2:]))


def answer_tally(reader, room, entries, missing, total, size):
    listed = [reader.row() for _ in range(entries)]
    before = Tally(tuple((name, count) for count, name in listed), missing, total)
    memory = Memory(room, before.entries, lent_room)
    answer, after = add(before, room, reader.block(size))
    if after is not before:
        memory.follow(before.entries, after.entries)
    return answer + " entries %d missing %d total %d list %d" % (len(after.entries), after.missing, after.total, digest(memory.numbers()))


def answer_replay(reader, size):
    store = replay(reader.block(size))
    told = []
    for note in store.notes:
        told += [note.event, note.number]
        told += [] if note.number else [note.paper, note.shelf, note.paper - note.shelf]
    for key, paper in store.papers.items():
        told += [*key, paper]
    text = "events %d lots %d received %d issued %d paper %d counts %d digest %d" % (
        store.events, len(store.papers), store.received, store.issued, sum(store.papers.values()),
        len(store.counts()), digest(told))
    return text + (" refused %d event %d" % (store.refused, store.events + 1) if store.refused else "")


OPERATIONS = {
    "check": lambda reader, kind, size: verdict(check(kind, reader.block(size))),
    "read": answer_read, "fetch": answer_fetch, "items": answer_items, "write": answer_write,
    "catalogue": answer_catalogue, "copy": answer_copy, "feed": answer_feed,
    "next": answer_next, "replay": answer_replay, "formula": answer_formula,
    "pieces": answer_pieces, "mend": answer_mend, "tally": answer_tally, "changes": answer_changes}


def answers(data):
    """The expected output for a case file: one line for each case."""
    reader, lines = Reader(data), []
    while not reader.done():
        operation, *numbers = reader.line()
        lines.append(OPERATIONS[operation](reader, *map(int, numbers)))
    return "".join(line + "\n" for line in lines)
