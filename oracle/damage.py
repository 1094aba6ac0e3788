"""Damaged files: aimed ones that know the refusal they must meet, and blind ones.

Every aim takes good rows, spoils one line, and names the refusal's number and column. The columns
below are copied from the layout of the lines by hand, apart from forms.py, so each checks the other.
"""

from generate import Row, aligned, draft_record, file_rows, good_drafts, integer, to_bytes
from limit import LIMIT

# first column, last column, good numbers; the top of an atom number is n
N = "n"
FIELDS = {
    "counts": [(1, 3, range(LIMIT + 1)), (4, 6, range(LIMIT + 1)), (7, 9, [0]), (13, 15, [0, 1]),
               (16, 18, [0])],
    "atom": [(35, 36, range(-3, 5)), (37, 39, range(8)), (40, 42, range(4)), (43, 45, range(6)),
             (46, 48, range(2)), (49, 51, range(16)), (52, 54, range(2)), (61, 63, (0, N)),
             (64, 66, range(3)), (67, 69, range(2))],
    "bond": [(1, 3, (1, N)), (4, 6, (1, N)), (7, 9, range(1, 9)), (16, 18, range(3)),
             (19, 21, [-1, 0, 1, 2, 4, 5, 8, 9, 12, 13])],
}
WIDTH = {"counts": 39, "atom": 69, "bond": 21}
NUMBERS = {"CHG": range(-15, 16), "RAD": range(4), "ISO": range(1, 1000)}
BAD_COORDINATES = ["-99999.999", "     .0000", "   0.0000 ", "    0.000 ", "  - 0.0000", "   +1.0000",
                   "    1,0000", "         0", "    0.00 0", "100000.000", "   --.0000", "    -.0000",
                   "1 000.0000", "    1.00x0", "   1 .0000", ".         "]
BAD_SYMBOLS = ["   ", "c  ", "CL ", " C ", "  C", "Xx ", "C C", "D  ", "T  ", "R# ", "L  ", "HeH", "**",
               "lp ", "LP1", "A A", "Uue", "h  ", "Cl.", "Og1"]
BAD_TAGS = ["M END", "M  ALS", "m  CHG", "A    1", "", "M  CHR", "M\x20\x20RGP", "G  001", "S  SKP",
            "M  STY", "M   CHG", " M  END", "$$$$", "V    1", "MM CHG", "M  end", "END"]
BAD_VERSIONS = [" V3000", " v2000", "V2000 ", "      ", " V200", "1V2000", " V200O", "  V2000"]
BAD_HEADERS = [b"", b" ", b"$$$$x", b"$$$", b" $$$$", b"><A>", b">  <>", b">  <A", b">  <A> 7",
               b">  <A>(M)", b"> 55 <A>", b">  <A<B>", b"<A>", b">  A", b">  <" + b"n" * 31 + b">",
               b"> ", b"00417", b">  DT12", b"$$$$ $$$$", b">  <A>>", b" >  <A>"]
RESERVED = [b"$$$$", b"$MDL", b"$RXN", b"$RDFILE"]
MALFORMED = [["x", "1x", ".", "0.", "e1", "-1x"],           # a byte that no integer has
             ["1 1", "1 2", "0 0", "9 9"],                  # a space between digits
             ["-", "+", "- 1", "+ 1", "+ 0"],               # a sign, and no digit right after it
             ["1-", "1+", "--1", "++1", "+-1", "-+1", "1-1", "1+1"]]
SIGNED = ["-1", "-0", "+1", "+0", "+9", "-99", "+99", "+00"]    # malformed where no number is negative


def put(text, first, new):
    """The line with `new` standing from column `first`."""
    new = new.encode() if isinstance(new, str) else new
    text = text.ljust(first - 1 + len(new))
    return text[:first - 1] + new + text[first - 1 + len(new):]


def limits(good, n):
    return range(good[0], n + 1) if isinstance(good, tuple) else good


def malformed(rng, width, signed):
    """A text of that width which is no integer field, at any place of its columns."""
    ways = MALFORMED if signed else MALFORMED + [SIGNED]
    ways = [[text for text in texts if len(text) <= width] for texts in ways]
    return aligned(rng, rng.choice(rng.choice([texts for texts in ways if texts])), width)


def outside(rng, good, width):
    """A well-formed number that isn't among the good ones, or None."""
    signed = min(good, default=0) < 0
    tops = range(0, 10 ** width)
    lows = range(-(10 ** (width - 1)) + 1, 0) if signed else range(0)
    near = [v for v in (max(good, default=0) + 1, min(good, default=0) - 1) if v in tops or v in lows]
    far = [v for v in (rng.choice(tops), rng.choice(tops), 10 ** width - 1, 0) if v not in good]
    wrong = near + far + [v for v in lows[:3] if v not in good]
    if not wrong:
        return None
    return integer(rng, rng.choice(wrong), width, signed)


class Aim:
    """Rows with one spoiled line, and the refusal they must meet."""

    def __init__(self, kind, rows, index, number, column):
        self.kind, self.rows, self.number = kind, rows, number
        self.line, self.column = index + 1, column

    def answer(self):
        return ("refused", self.number, self.line, self.column)


def spoil_field(rng, row):
    first, last, good = rng.choice(FIELDS[row.place])
    good, width = limits(good, row.draft.n), last - first + 1
    number, text = 8, outside(rng, good, width)
    if text is None or rng.random() < 0.5:
        number, text = 7, malformed(rng, width, min(good, default=0) < 0)
    row.text = put(row.text, first, text)
    return number, first


def spoil_coordinate(rng, row):
    first = rng.choice([1, 11, 21])
    row.text = put(row.text, first, rng.choice(BAD_COORDINATES))
    return 7, first


def spoil_symbol(rng, row):
    row.text = put(row.text, 32, rng.choice(BAD_SYMBOLS).ljust(3))
    return 9, 32


def spoil_gap(rng, row):
    row.text = put(row.text, 31, rng.choice("0x-."))
    return 15, 31


def spoil_version(rng, row):
    row.text = put(row.text[:33], 34, rng.choice(BAD_VERSIONS))
    return 6, 34


def spoil_bond_total(rng, row):
    """m above n(n-1)/2 but good by itself."""
    least = row.draft.n * (row.draft.n - 1) // 2 + 1
    row.text = put(row.text, 4, integer(rng, rng.choice([least, rng.randrange(least, LIMIT + 1), LIMIT]), 3))
    return 12, 4


def spoil_stereo(rng, row):
    """Type and stereo that don't go together, or a malformed stereo; the ends stay good."""
    kind = rng.randrange(1, 9)
    wrong = sorted(set(range(10)) - set({1: [0, 1, 4, 6], 2: [0, 3]}.get(kind, [0])))
    number, text = 8, integer(rng, rng.choice(wrong + [999]), 3)
    if rng.random() < 0.3:
        number, text = 7, malformed(rng, 3, False)
    row.text = put(row.text, 7, integer(rng, kind, 3) + text)
    return number, 10


def spoil_ends(rng, row):
    """Equal ends, or an earlier pair again in either direction."""
    earlier = row.draft.bonds[:row.index]
    if not earlier or rng.random() < 0.3:
        a = rng.randrange(1, row.draft.n + 1)
        row.text = put(row.text, 1, integer(rng, a, 3) + integer(rng, a, 3))
        return 10, 1
    a, b = rng.sample(rng.choice(earlier)[:2], 2)
    row.text = put(row.text, 1, integer(rng, a, 3) + integer(rng, b, 3))
    return 11, 1


def spoil_rest(rng, row):
    """Something after the last named part."""
    if row.place == "property":
        width = 9 + 8 * len(row.draft.properties[row.index][1])
    else:
        width = WIDTH.get(row.place, 6)
    column = rng.choice([width + 1, width + 2, 80, rng.randrange(width + 1, 81)])
    row.text = put(row.text[:width], column, rng.choice("0x1-$"))
    return 15, column


def spoil_tag(rng, row):
    row.text = put(row.text, 1, rng.choice(BAD_TAGS).ljust(6)[:6])
    return 13, 1


def spoil_entry_count(rng, row):
    number, text = 8, integer(rng, rng.choice([0, 0, 0, 9, 9, 10, 999]), 3)
    if rng.random() < 0.4:
        number, text = 7, malformed(rng, 3, False)
    row.text = put(row.text, 7, text)
    return number, 7


def spoil_entry(rng, row):
    """One thing about one entry: a space, the atom, the number, or an entry missing."""
    tag, entries = row.draft.properties[row.index]
    k = rng.randrange(len(entries))
    first, n = 10 + 8 * k, row.draft.n
    choice = rng.randrange(6)
    if choice == 0:
        column = first + rng.choice([0, 4])
        row.text = put(row.text, column, rng.choice("0x-"))
        return 15, column
    if choice == 1:
        row.text = put(row.text, first + 1, malformed(rng, 3, False))
        return 7, first + 1
    if choice == 2:
        row.text = put(row.text, first + 1, outside(rng, range(1, n + 1), 3))
        return 8, first + 1
    if choice == 3:
        row.text = put(row.text, first + 5, malformed(rng, 3, tag == "CHG"))
        return 7, first + 5
    if choice == 4:
        row.text = put(row.text, first + 5, outside(rng, NUMBERS[tag], 3))
        return 8, first + 5
    if choice == 5 and len(entries) < 8 and rng.random() < 0.5:
        row.text = put(row.text[:9 + 8 * len(entries)], 7, integer(rng, len(entries) + 1, 3))
        return 8, 11 + 8 * len(entries)
    row.text = put(row.text, first + 1, integer(rng, 0, 3))
    return 8, first + 1


def spoil_repeat(rng, row):
    """An atom listed before, on this line or an earlier one of its kind (8 if there is none)."""
    tag, entries = row.draft.properties[row.index]
    k = rng.randrange(len(entries)) if rng.random() < 0.5 else len(entries) - 1
    earlier = [a for t, es in row.draft.properties[:row.index] if t == tag for a, _ in es]
    earlier += [a for a, _ in row.draft.properties[row.index][1][:k]]
    first = 11 + 8 * k
    if not earlier:
        row.text = put(row.text, first, "  0")
        return 8, first
    row.text = put(row.text, first, integer(rng, rng.choice(earlier), 3))
    return 14, first


def spoil_title(rng, row):
    tag = rng.choice(RESERVED)
    before = rng.choice([0, 1, 7, 80 - len(tag)])
    row.text = b"x" * before + tag + rng.choice([b"", b"y"])[:80 - before - len(tag)]
    return 5, 1


def spoil_length(rng, row):
    """One column too many for the place, or many."""
    limit = 200 if row.place in ("value", "blank") else 80
    size = rng.choice([limit + 1, limit + 1, limit + 2, limit + 57])
    row.text = row.text.ljust(size, rng.choice([b" ", b"x", b"\x07"]))
    return 3, limit + 1


def spoil_byte(rng, row):
    """A byte not allowed; a CR that isn't the one before LF counts too."""
    column = rng.randrange(1, min(len(row.text) + 3, 80))
    row.text = put(row.text, column, bytes([rng.choice([0, 9, 11, 13, 31, 127, 128, 160, 255])]))
    if row.text.endswith(b"\r"):
        row.text += b"."
    return 4, column


def spoil_item_place(rng, row):
    row.text = rng.choice(BAD_HEADERS)
    return 16, 1


def spoil_value_place(rng, row):
    row.text = rng.choice([b"$$$$", b"$$$$x", b"$$$$" + b" " * 196, b">  <LOT>", b"> <A>   ",
                           b">" + b" " * 75 + b"<AB>", b"$$$$$", b">  <" + b"n" * 30 + b">"])
    return 17, 1


SPOILERS = [        # the place, the way, how often, and the numbers that can come of it
    ("title", spoil_title, 1, (5,)), ("counts", spoil_field, 3, (7, 8)),
    ("counts", spoil_version, 1, (6,)), ("counts", spoil_bond_total, 1, (12,)),
    ("counts", spoil_rest, 1, (15,)), ("atom", spoil_field, 5, (7, 8)),
    ("atom", spoil_coordinate, 2, (7,)), ("atom", spoil_symbol, 1, (9,)),
    ("atom", spoil_gap, 1, (15,)), ("atom", spoil_rest, 1, (15,)), ("bond", spoil_field, 3, (7, 8)),
    ("bond", spoil_stereo, 1, (7, 8)), ("bond", spoil_ends, 3, (10, 11)), ("bond", spoil_rest, 1, (15,)),
    ("property", spoil_tag, 1, (13,)), ("property", spoil_entry_count, 1, (7, 8)),
    ("property", spoil_entry, 4, (7, 8, 15)), ("property", spoil_repeat, 2, (14,)),
    ("property", spoil_rest, 1, (15,)), ("end", spoil_tag, 1, (13,)), ("end", spoil_rest, 1, (15,)),
    ("header", spoil_item_place, 2, (16,)), ("close", spoil_item_place, 1, (16,)),
    ("value", spoil_value_place, 2, (17,)), ("blank", spoil_value_place, 1, (17,)),
    ("any", spoil_length, 3, (3,)), ("any", spoil_byte, 3, (4,))]
AIMED_NUMBERS = sorted({number for *_, numbers in SPOILERS for number in numbers})


def spoil_later(rng, rows, index):
    """More damage after the refused line changes nothing."""
    for row in rows[index + 1:]:
        if rng.random() < 0.2:
            row.text = rng.choice([b"", b"\x00", b"x" * 300, b"$$$$", row.text[::-1]])


def draft_for(rng, place):
    """A draft in which lines of that place are likely to stand."""
    n = {"atom": [1, 2, 3, 4], "property": [1, 2, 3, 4, 9, 12], "bond": [2, 3, 4]}.get(place)
    return draft_record(rng, n and rng.choice(n),
                        items=2 if place in ("header", "value", "blank") else None)


def aim(rng, kind, place, spoil):
    """One try: a file with that place spoiled, or None if the file has no such line."""
    before = [draft_record(rng) for _ in range(rng.choice([0, 0, 0, kind]))]
    draft = draft_for(rng, place)
    rows = file_rows(rng, before + [draft], kind)
    fitting = [k for k, row in enumerate(rows)
               if row.draft is draft and place in ("any", row.place)]
    if not fitting:
        return None
    index = rng.choice(fitting)
    number, column = spoil(rng, rows[index])
    if rng.random() < 0.5:
        spoil_later(rng, rows, index)
    return Aim(kind, rows, index, number, column)


def aimed(rng, kind, wanted=None):
    """One spoiled file with the refusal it must meet; of the wanted number, if one is given."""
    ways = [(place, spoil) for place, spoil, weight, numbers in SPOILERS for _ in range(weight)
            if wanted is None or wanted in numbers]
    ways = [way for way in ways if kind == 1 or way[0] not in ("header", "close", "value", "blank")]
    while True:
        shot = aim(rng, kind, *rng.choice(ways))
        if shot and wanted in (None, shot.number):
            return shot


def spoiled_bond(rng, kind):
    """A record of several bonds with one of them spoiled, mostly by a pair that stood before."""
    n = rng.randrange(4, 9)
    draft = draft_record(rng, n, rng.randrange(3, min(14, n * (n - 1) // 2) + 1), 0)
    rows = file_rows(rng, [draft], kind)
    index = rng.choice([k for k, row in enumerate(rows) if row.place == "bond"])
    number, column = rng.choice([spoil_ends] * 4 + [spoil_field, spoil_stereo, spoil_rest])(rng, rows[index])
    if rng.random() < 0.5:
        spoil_later(rng, rows, index)
    return Aim(kind, rows, index, number, column)


def surplus(rng):
    """A molfile with a line too many: 18, but 3 or 4 if the line is bad as a line."""
    rows = file_rows(rng, [draft_record(rng)], 0)
    text, number, column = rng.choice([
        (b"", 18, 1), (b"$$$$", 18, 1), (b"x" * 80, 18, 1), (b" " * 81, 3, 81), (b"ab\tc", 4, 3)])
    rows.append(Row("surplus", text))
    return Aim(0, rows, len(rows) - 1, number, column)


def truncated(rng, kind):
    """A good file cut short, and the line that 19 then names (None if it is a good file yet)."""
    data = to_bytes(rng, file_rows(rng, good_drafts(rng, kind) or [draft_record(rng)], kind))
    data = data[:rng.randrange(len(data))]
    if rng.random() < 0.3:
        data = data[:data.rfind(b"\n") + 1]
    return data


def blind(rng, data):
    """Damage without aim: a byte changed, lost, doubled or added, a cut, lines swapped or lost."""
    if not data:
        return bytes([rng.randrange(256)])
    at = rng.randrange(len(data))
    choice = rng.randrange(9)
    if choice == 0:
        return data[:at] + bytes([data[at] ^ 1 << rng.randrange(8)]) + data[at + 1:]
    if choice == 1:
        return data[:at] + data[at + rng.choice([1, 1, 1, 3, 20]):]
    if choice == 2:
        return data[:at] + bytes([rng.choice(b"0 1-+.>$x\n\r9")]) + data[at:]
    if choice == 3:
        return data[:at] + bytes([rng.choice(b"0 1-+.>$x\n\r9")]) + data[at + 1:]
    if choice == 4:
        return data[:at]
    lines = data.split(b"\n")
    a, b = rng.randrange(len(lines)), rng.randrange(len(lines))
    if choice == 5:
        lines[a], lines[b] = lines[b], lines[a]
    elif choice == 6:
        del lines[a]
    elif choice == 7:
        lines.insert(a, lines[b])
    else:
        lines[a] = lines[b]
    return b"\n".join(lines)


def damaged(rng, kind):
    """A damaged file of any sort."""
    choice = rng.random()
    if choice < 0.45:
        return to_bytes(rng, aimed(rng, kind).rows)
    if choice < 0.55:
        return truncated(rng, kind)
    data = to_bytes(rng, file_rows(rng, good_drafts(rng, kind), kind))
    for _ in range(rng.choice([1, 1, 1, 2, 5])):
        data = blind(rng, data)
    return data
