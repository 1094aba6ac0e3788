"""Capellanote for Python: SDfiles and molfiles checked, read, fetched and written by the proved library, on x86-64 Linux.

    import capellanote
    data = open("delivery.sdf", "rb").read()
    for record in capellanote.read(data):
        print(record.title, capellanote.fetch(record.text, b"LOT"))

Texts, names and codes are bytes, never str or int: b"00417" and b"417" are two codes. A refused text raises Refused.
The shared library is built by `library/build`; CAPELLANOTE_LIBRARY names another place for it.
"""
import ctypes
import os
from dataclasses import dataclass, field

MOLFILE, SDFILE = 0, 1
LIMIT, ATOM, BOND = 999, 16, 6
# The places of an atom's row and of a bond's, as read and write have them.
ATOM_FIELDS = ("x", "y", "z", "symbol", "mass_difference", "charge", "radical", "isotope", "parity", "hydrogens",
               "care", "valence", "h0", "map", "inversion", "exact")
BOND_FIELDS = ("first", "second", "type", "stereo", "topology", "centre")


def _load():
    here = os.path.dirname(os.path.abspath(__file__))
    name = os.environ.get("CAPELLANOTE_LIBRARY") or os.path.join(here, "..", "target", "sharedlib", "libcapellanote.so")
    try:
        library = ctypes.CDLL(name)
    except OSError as trouble:
        raise OSError("%s; library/build makes the shared library, for x86-64, and CAPELLANOTE_LIBRARY names another place for it" % trouble) from None
    library.capellanote_sentence_of.restype = ctypes.c_char_p
    library.capellanote_sentence_of.argtypes = [ctypes.c_size_t]
    text, table, answer = [ctypes.c_char_p, ctypes.c_size_t], [ctypes.POINTER(ctypes.c_int32), ctypes.c_size_t], [ctypes.POINTER(ctypes.c_uint64)]
    size, count, byte = [ctypes.c_size_t], [ctypes.c_uint32], [ctypes.c_uint8]
    for name, arguments in (
            ("check", byte + text + answer),
            ("next", text + 3 * size + 2 * table + answer),
            ("find", 2 * text + answer),
            ("item", text + size + answer),
            ("feed", 2 * size + text + byte + size + answer),
            ("write_record", 2 * table + 3 * count + 3 * text + answer),
    ):
        function = getattr(library, "capellanote_" + name)
        function.restype = None
        function.argtypes = arguments
    return library


_library = _load()


def sentence(number):
    """What the number of a refusal means."""
    return _library.capellanote_sentence_of(number).decode("ascii")


class Refused(ValueError):
    """A text that is refused: number, line and column, the last two 0 where the refusal names no line."""

    def __init__(self, number, line, column):
        where = "line %d, column %d: " % (line, column) if line else ""
        super().__init__("%srefused %d: %s" % (where, number, sentence(number)))
        self.number, self.line, self.column = number, line, column


class TooLong(ValueError):
    """A record of a stream that does not end within the room for it."""

    def __init__(self, record):
        super().__init__("record %d too long" % record)
        self.record = record


def _bytes(text):
    if not isinstance(text, (bytes, bytearray)):
        raise TypeError("texts, names and codes are bytes, not " + type(text).__name__)
    return bytes(text)


def _accepted(answer):
    if answer[0]:
        raise Refused(answer[0], answer[1], answer[2])
    return answer


def check(text, kind=SDFILE):
    """The number of records of a text; Refused where it is not well formed."""
    text, answer = _bytes(text), (ctypes.c_uint64 * 3)()
    if kind not in (MOLFILE, SDFILE):
        raise Refused(1, 0, 0)
    _library.capellanote_check(kind, text, len(text), answer)
    return _accepted(answer)[1]


@dataclass
class Record:
    """A record as it was read: bytes in header, items and text; rows of numbers in atoms and bonds."""
    header: list = field(default_factory=lambda: [b"", b"", b""])
    chiral: int = 0
    atoms: list = field(default_factory=list)
    bonds: list = field(default_factory=list)
    items: list = field(default_factory=list)  # pairs of a name and a list of value lines
    number: int = 0
    line: int = 0
    text: bytes = b""

    @property
    def title(self):
        return self.header[0]


def _lines(text):
    return [line[:-1] if line.endswith(b"\r") else line for line in text.split(b"\n")[:-1]]


def _values(record, start, end):
    return _lines(record[start:end] + b"\n") if end else []


def _items(record, at):
    """The items of an accepted record, from where they start."""
    items, answer = [], (ctypes.c_uint64 * 8)()
    while True:
        _library.capellanote_item(record, len(record), at, answer)
        _accepted(answer)
        if not answer[1]:
            return items
        items.append((record[answer[2]:answer[3]], _values(record, answer[4], answer[5])))
        at = answer[6]


def _rows(table, count, places):
    return [tuple(table[k * places:(k + 1) * places]) for k in range(count)]


def read(text, kind=SDFILE):
    """The records of a text, one after the other. Nothing of a refused text is given."""
    text = _bytes(text)
    check(text, kind)
    if kind == MOLFILE:
        text += b"$$$$\n"  # a good molfile is a record without items and its last line
    return _walk(text)


def _walk(text):
    atoms, bonds = (ctypes.c_int32 * (LIMIT * ATOM))(), (ctypes.c_int32 * (LIMIT * BOND))()
    answer = (ctypes.c_uint64 * 13)()
    while True:
        start, line = answer[9], answer[10] + 1
        _library.capellanote_next(text, len(text), answer[9], answer[10], answer[11], atoms, len(atoms), bonds, len(bonds), answer)
        _accepted(answer)
        if not answer[12]:
            return
        record = text[start:answer[9]]
        yield Record(_lines(record[:answer[6]]), answer[3], _rows(atoms, answer[1], ATOM), _rows(bonds, answer[2], BOND),
                     _items(record, answer[7]), answer[11], line, record)


def fetch(record, name):
    """The value lines of the first item of that name in a record's text; None where the record has no such item."""
    record, name, answer = _bytes(record), _bytes(name), (ctypes.c_uint64 * 3)()
    _library.capellanote_find(record, len(record), name, len(name), answer)
    if answer[0] == 22:
        return None
    _accepted(answer)
    return _values(record, answer[1], answer[2])


def _table(rows, places, kind):
    table = (ctypes.c_int32 * (LIMIT * places))()
    if len(rows) > LIMIT or any(len(row) != places for row in rows):
        raise ValueError("at most %d %s of %d numbers" % (LIMIT, kind, places))
    for k, row in enumerate(rows):
        for place, number in enumerate(row):
            if not -2 ** 31 <= number < 2 ** 31:
                raise Refused(21, 0, 0)
            table[k * places + place] = number
    return table


def _part(lines):
    """Lines as one text, in which each is a line: a line end within one would make two of it."""
    for number, line in enumerate(lines, 1):
        for end in b"\n", b"\r":
            if end in line:
                raise Refused(4, number, line.index(end) + 1)
    return b"".join(line + b"\n" for line in lines)


def _item_lines(items):
    for name, values in items:
        yield b">  <" + _bytes(name) + b">"
        for line in map(_bytes, values):
            if not line.strip(b" "):
                raise ValueError("a value line of the item %r is blank, and a blank line ends an item" % name)
            yield line
        yield b""


def write(record):
    """The canonical text of a record; Refused where it cannot be written. What is read of it is the record again."""
    atoms, bonds = _table(record.atoms, ATOM, "atoms"), _table(record.bonds, BOND, "bonds")
    header = _part([_bytes(line) for line in record.header])
    items = _part(list(_item_lines(record.items)))
    size = 4096 + 70 * len(record.atoms) + 22 * len(record.bonds) + 3 * 18 * LIMIT + len(header) + len(items)
    room, answer = ctypes.create_string_buffer(size), (ctypes.c_uint64 * 3)()
    _library.capellanote_write_record(atoms, len(atoms), bonds, len(bonds), len(record.atoms), len(record.bonds), record.chiral,
                                      header, len(header), items, len(items), room, size, answer)
    return room.raw[:_accepted(answer)[1]]


def count(stream, room=1048576):
    """The number of records of an SDfile that is read from a binary stream in parts, in constant memory."""
    records = lines = 0
    part, ended = b"", False
    while True:
        while len(part) <= room and not ended:  # one byte more than the room tells whether input follows
            more = stream.read(room + 1 - len(part))
            ended = not more
            part += more
        whole = ended and len(part) <= room
        answer = (ctypes.c_uint64 * 5)()
        _library.capellanote_feed(records, lines, part[:room], min(len(part), room), whole, room, answer)
        _accepted(answer)
        if answer[1] == 1:
            return answer[2]
        if answer[1] == 2:
            raise TooLong(answer[2])
        records, lines, part = answer[2], answer[3], part[answer[4]:]
