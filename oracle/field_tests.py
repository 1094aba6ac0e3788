"""Every number of every field in every spelling, and every column of the lines that have columns."""

import re

from ctfile import Context
from damage import put
from expect import expect
from forms import ATOM, BOND, COUNTS, Complaint, ENTRY_COUNT, integer_shape, integer_value, property_form
from limit import LIMIT
from spelled import every_text, integer_fields, positions

PLAIN = {"counts": b"  2  1  0  0  0  0  0  0  0  0999 V2000",
         "atom": b"    0.0000    0.0000    0.0000 C   0  0  0  0  0  0  0  0  0  0  0  0",
         "bond": b"  1  2  1  0  0  0  0"}
ATOMS = 8                   # of the record around a field


def number_in(text, signed):
    """What an integer field says, taken apart by hand; None if it is malformed."""
    inner = text.strip(" ")
    sign = inner[:1] if inner[:1] in ("+", "-") else ""
    digits = inner[len(sign):]
    if inner == "":
        return 0
    if (sign and not signed) or digits == "" or set(digits) - set("0123456789"):
        return None
    value = sum(int(digit) * 10 ** k for k, digit in enumerate(reversed(digits)))
    return -value if sign == "-" else value


def every_width():
    """Fields of one to five columns, signed or not, in every text of a few bytes."""
    for width in range(1, 6):
        for signed in (False, True):
            pattern = re.compile(integer_shape(width, signed))
            for text in every_text(width, " +-07" if width > 3 else " +-079.x"):
                found = pattern.fullmatch(text.encode())
                expect("%r, signed %s" % (text, signed), found and integer_value(found.group()), number_in(text, signed))


def spellings_by_hand():
    """The forms of a field as they are told, in a signed field and in one that is not."""
    for text, signed, unsigned in (
            ("1  ", 1, 1), (" 1 ", 1, 1), ("  1", 1, 1), ("01 ", 1, 1), ("   ", 0, 0), ("12 ", 12, 12), ("000", 0, 0),
            ("+1 ", 1, None), (" +1", 1, None), ("+01", 1, None), ("+0 ", 0, None), ("-1 ", -1, None), (" -1", -1, None),
            ("-0 ", 0, None), ("+  ", None, None), ("  +", None, None), (" - ", None, None), ("- 1", None, None),
            ("+ 1", None, None), ("1 2", None, None), ("1 1", None, None), ("1+ ", None, None), ("1 -", None, None),
            ("+-1", None, None), ("++1", None, None), ("1. ", None, None)):
        for sign, want in ((True, signed), (False, unsigned)):
            found = re.fullmatch(integer_shape(3, sign), text.encode())
            expect("%r, signed %s" % (text, sign), found and integer_value(found.group()), want)
            expect("%r by hand, signed %s" % (text, sign), number_in(text, sign), want)


def form_and_line(field):
    """The form that judges the field, and a good line around it."""
    if field.place == "property":
        form = ENTRY_COUNT if field.first == 7 else property_form(field.tag, 2)
        return form, b"M  " + field.tag + b"  2   8   1   7   1"
    line = put(PLAIN[field.place], 4, "  0") if field.place == "counts" else PLAIN[field.place]
    return {"counts": COUNTS, "atom": ATOM, "bond": BOND}[field.place], line


def verdict(field, value):
    """What a line plain but for this field gives; None for the value is a malformed field."""
    if value is None:
        return 7, field.first
    if (field.place, field.first) == ("counts", 4) and value in range(2, LIMIT + 1):     # m above what n = 2 allows
        return 12, 4
    if (field.place, field.first, value) in (("property", 11, 7), ("property", 19, 8)):    # the line's other atom
        return 14, 19
    return None if value in field.good else (8, field.first)


def every_number_of_every_field():
    """All numbers a field can hold, at each place of its columns and with either sign."""
    for field in integer_fields(ATOMS):
        form, line = form_and_line(field)
        for value in range(10 ** field.width):
            for text in (str(value), "+%d" % value, "-%d" % value):
                for spelled in positions(text, field.width):
                    judge_text(field, form, line, spelled)


def every_text_in_every_field():
    """Spaces, signs and a few digits in every order, in every field of every line."""
    for field in integer_fields(ATOMS):
        form, line = form_and_line(field)
        for text in every_text(field.width):
            judge_text(field, form, line, text)


def judge_text(field, form, line, text):
    name = "%s %s column %d, %r" % (field.place, field.tag.decode(), field.first, text)
    want = verdict(field, number_in(text, field.signed))
    expect(name, judged(form, put(line, field.first, text), ATOMS), want)


def every_bond_type_with_every_stereo():
    pairs = {(1, 0), (1, 1), (1, 4), (1, 6), (2, 0), (2, 3)} | {(k, 0) for k in range(3, 9)}
    for kind in range(1000):
        for stereo in range(8 if kind > 9 else 1000):
            got = judged(BOND, put(PLAIN["bond"], 7, "%3d%3d" % (kind, stereo)))
            bad = (8, 7) if kind not in range(1, 9) else (8, 10)
            expect("type %d, stereo %d" % (kind, stereo), got, None if (kind, stereo) in pairs else bad)


def every_property_number():
    good = {b"CHG": range(-15, 16), b"RAD": range(4), b"ISO": range(1, 1000)}
    for tag, numbers in good.items():
        for value in range(-99, 1000):
            line = b"M  " + tag + b"  1   2 %3d" % value
            got = judged(property_form(tag, 1), line)
            bad = (8, 15) if value >= 0 or tag == b"CHG" else (7, 15)
            expect("%s %d" % (tag, value), got, None if value in numbers else bad)


# The fields of atom and bond lines: last column, and the column a refusal names (None: not read).
SPOTS = {
    "atom": [(10, 1), (20, 11), (30, 21), (31, 31), (34, 32), (36, 35), (39, 37), (42, 40), (45, 43),
             (48, 46), (51, 49), (54, 52), (60, None), (63, 61), (66, 64), (69, 67)],
    "bond": [(3, 1), (6, 4), (9, 7), (12, 10), (15, None), (18, 16), (21, 19)]}


def one_changed_byte():
    """A byte changed in a good line is refused in its own field, or not at all."""
    for place, spots in SPOTS.items():
        form = {"atom": ATOM, "bond": BOND}[place]
        for column in range(1, 81):
            for byte in b"#9-+ 0.5xCl$":
                got = judged(form, put(PLAIN[place], column, bytes([byte])))
                first = next((f for last, f in spots if column <= last), column)
                fitting = [None] + [(number, first) for number in spot_numbers(place, first)]
                expect("%s column %d, %c: %s" % (place, column, byte, got), got in fitting, True)
                if byte == ord("#") and first is not None:
                    expect("%s column %d, #" % (place, column), got is None, False)


def spot_numbers(place, first):
    if first is None:
        return ()
    if first == 31 or first > (69 if place == "atom" else 21):
        return (15,)
    if place == "atom" and first < 31:
        return (7,)
    return (9,) if first == 32 else (7, 8)


def judged(form, line, n=2):
    """None, or number and column, for a line of a record with so many atoms."""
    try:
        form.judge(line, Context(n))
        return None
    except Complaint as complaint:
        return complaint.args


ALL = [every_width, spellings_by_hand, every_number_of_every_field, every_text_in_every_field,
       every_bond_type_with_every_stereo, every_property_number, one_changed_byte]
