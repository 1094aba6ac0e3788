"""Whole-line patterns for every line that has columns.

A form is a row of parts. Joined, their shapes make one pattern for the whole line (filled with
spaces to 80 columns). If that pattern fails, the first part that no finishing can save is sought
among the patterns of the form's beginnings.
"""

import re
from functools import lru_cache
from typing import NamedTuple, Tuple

from limit import LIMIT

SYMBOLS = """
H He Li Be B C N O F Ne Na Mg Al Si P S Cl Ar K Ca Sc Ti V Cr Mn Fe Co Ni Cu Zn Ga Ge As Se Br Kr
Rb Sr Y Zr Nb Mo Tc Ru Rh Pd Ag Cd In Sn Sb Te I Xe Cs Ba La Ce Pr Nd Pm Sm Eu Gd Tb Dy Ho Er Tm
Yb Lu Hf Ta W Re Os Ir Pt Au Hg Tl Pb Bi Po At Rn Fr Ra Ac Th Pa U Np Pu Am Cm Bk Cf Es Fm Md No Lr
Rf Db Sg Bh Hs Mt Ds Rg Cn Nh Fl Mc Lv Ts Og
A Q * LP
""".split()
SYMBOL_FIELDS = {name.ljust(3).encode(): k for k, name in enumerate(SYMBOLS, 1)}

CENTRES = (-1, 0, 1, 2, 4, 5, 8, 9, 12, 13)
STEREO = {1: (0, 1, 4, 6), 2: (0, 3)}   # by bond type; only 0 for all others
PROPERTY_RANGE = {b"CHG": range(-15, 16), b"RAD": range(0, 4), b"ISO": range(1, 1000)}


class Complaint(Exception):
    """Number and column; the caller knows the line."""


class Part(NamedTuple):
    name: str
    first: int
    last: int
    shape: bytes
    wrong: int                  # number given when the shape fails
    value: object = None        # text -> value, or nothing to keep
    demands: Tuple = ()         # (number, test(value, seen, ctx)) in order


def integer_shape(width, signed):
    """All spaces, or spaces, perhaps a sign, digits, and spaces; every alternative has the field's width."""
    shapes = [" " * width]
    for sign in ["", "[-+]"] if signed else [""]:
        for digits in range(1, width + 1 - bool(sign)):
            spare = width - bool(sign) - digits
            shapes += ["%s%s[0-9]{%d}%s" % (" " * before, sign, digits, " " * (spare - before))
                       for before in range(spare + 1)]
    return ("(?:%s)" % "|".join(shapes)).encode()


def integer_value(text):
    return int(text) if text.strip() else 0


def integer(name, first, last, allowed, *later):
    """`allowed` is a range or list; or, where it hangs on the record, a pair (signed, test). Both signs are
    good where some number allowed is negative, and neither elsewhere."""
    if isinstance(allowed, tuple) and callable(allowed[-1]):
        signed, test = allowed
    else:
        signed, test = min(allowed) < 0, lambda v, seen, ctx: v in allowed
    shape = integer_shape(last - first + 1, signed)
    return Part(name, first, last, shape, 7, integer_value, ((8, test),) + later)


def coordinate(name, first):
    shape = rb"(?: {10}|(?=.{5}\.) *-?[0-9]+\.[0-9]{4})"
    value = lambda text: integer_value(text.replace(b".", b""))
    return Part(name, first, first + 9, shape, 7, value)


def symbol(first):
    shape = b"(?:" + b"|".join(re.escape(s) for s in SYMBOL_FIELDS) + b")"
    return Part("symbol", first, first + 2, shape, 9, SYMBOL_FIELDS.get)


def words(name, first, shape, width, wrong):
    return Part(name, first, first + width - 1, shape, wrong, bytes)


def skipped(first, last):
    return Part("", first, last, b".{%d}" % (last - first + 1), 0)


def spaces(first, last=80):
    return Part("", first, last, b" {%d}" % max(0, last - first + 1), 15)


class Form:
    def __init__(self, *parts):
        self.parts = parts
        for left, right in zip(parts, parts[1:]):
            assert right.first == left.last + 1, (left, right)

    @lru_cache(maxsize=None)
    def beginning(self, count):
        return re.compile(b"".join(p.shape for p in self.parts[:count]))

    def first_dead(self, text):
        """How many parts stand before the first that cannot be matched (all, if none)."""
        low, high = 0, len(self.parts)
        if self.beginning(high).match(text):
            return high
        while low + 1 < high:           # beginnings die once and stay dead
            middle = (low + high) // 2
            if self.beginning(middle).match(text):
                low = middle
            else:
                high = middle
        return low

    def judge(self, line, ctx=None):
        """The values by name, or a complaint about the leftmost bad part."""
        text = line.ljust(80)
        alive = self.first_dead(text)
        seen = {}
        for part in self.parts[:alive]:
            if part.value is None:
                continue
            value = part.value(text[part.first - 1:part.last])
            for number, test in part.demands:
                if not test(value, seen, ctx):
                    raise Complaint(number, part.first)
            seen[part.name] = value
        if alive < len(self.parts):
            part = self.parts[alive]
            column = part.first
            if part.wrong == 15:        # 15 names the byte itself
                column = re.compile(b"[^ ]").search(text, part.first - 1).start() + 1
            raise Complaint(part.wrong, column)
        return seen


UP_TO_N = (False, lambda v, seen, ctx: 1 <= v <= ctx.n)
ZERO_TO_N = (False, lambda v, seen, ctx: v <= ctx.n)

COUNTS = Form(
    integer("n", 1, 3, range(LIMIT + 1)),
    integer("m", 4, 6, range(LIMIT + 1),
            (12, lambda m, seen, ctx: 2 * m <= seen["n"] * (seen["n"] - 1))),
    integer("lists", 7, 9, [0]), skipped(10, 12),
    integer("chiral", 13, 15, [0, 1]),
    integer("stext", 16, 18, [0]), skipped(19, 33),
    words("version", 34, b" V2000", 6, 6), spaces(40))

ATOM = Form(
    coordinate("x", 1), coordinate("y", 11), coordinate("z", 21), spaces(31, 31), symbol(32),
    integer("mass", 35, 36, range(-3, 5)), integer("code", 37, 39, range(8)),
    integer("parity", 40, 42, range(4)), integer("hydrogens", 43, 45, range(6)),
    integer("care", 46, 48, [0, 1]), integer("valence", 49, 51, range(16)),
    integer("h0", 52, 54, [0, 1]), skipped(55, 60), integer("map", 61, 63, ZERO_TO_N),
    integer("inversion", 64, 66, range(3)), integer("exact", 67, 69, [0, 1]), spaces(70))

BOND = Form(
    integer("first", 1, 3, UP_TO_N), integer("second", 4, 6, UP_TO_N),
    integer("type", 7, 9, range(1, 9)),
    integer("stereo", 10, 12, (False, lambda v, seen, ctx: v in STEREO.get(seen["type"], (0,)))),
    skipped(13, 15), integer("topology", 16, 18, range(3)),
    integer("centre", 19, 21, CENTRES), spaces(22))

PROPERTY_TAG = Form(words("tag", 1, b"M  (?:CHG|RAD|ISO|END)", 6, 13))
END = Form(words("tag", 1, b"M  END", 6, 13), spaces(7))
ENTRY_COUNT = Form(skipped(1, 6), integer("entries", 7, 9, range(1, 9)))


def not_listed(value, seen, ctx):
    """Neither on an earlier line of this property nor earlier on this line."""
    here = [seen[name] for name in seen if name.startswith("atom")]
    return value not in ctx.listed and value not in here


@lru_cache(maxsize=None)
def property_form(kind, entries):
    """The form of an `M  CHG`, `M  RAD` or `M  ISO` line with that many entries."""
    parts = [skipped(1, 9)]
    for k in range(entries):
        first = 10 + 8 * k
        parts += [spaces(first, first),
                  integer("atom%d" % k, first + 1, first + 3, UP_TO_N, (14, not_listed)),
                  spaces(first + 4, first + 4),
                  integer("number%d" % k, first + 5, first + 7, PROPERTY_RANGE[kind])]
    return Form(*parts, spaces(10 + 8 * entries))


# Lines without columns.
RESERVED = re.compile(rb"\$\$\$\$|\$MDL|\$RXN|\$RDFILE")
DATA_HEADER = re.compile(rb"> +<([^<>]{1,30})> *")
RECORD_END = re.compile(rb"\$\$\$\$ *")
BLANK = re.compile(rb" *")


def header_name(text):
    """The name in a well-formed data header, else None; a header has at most 80 columns."""
    found = DATA_HEADER.fullmatch(text) if len(text) <= 80 else None
    return found and found.group(1)
