"""A second, simpler way to the refused line, sharing no code with ctfile.py or forms.py.

Good files are told by one big pattern over the padded text, good numbers being spelled out one by
one. The refused line is then the last of the shortest run of lines that cannot be finished: each
run is finished in a few plain ways, and the pattern judges whether any of them is a good file.
"""

import re
from functools import lru_cache
from itertools import islice

from limit import LIMIT

SYMBOLS = (
    "H|He|Li|Be|B|C|N|O|F|Ne|Na|Mg|Al|Si|P|S|Cl|Ar|K|Ca|Sc|Ti|V|Cr|Mn|Fe|Co|Ni|Cu|Zn|Ga|Ge|As|Se|"
    "Br|Kr|Rb|Sr|Y|Zr|Nb|Mo|Tc|Ru|Rh|Pd|Ag|Cd|In|Sn|Sb|Te|I|Xe|Cs|Ba|La|Ce|Pr|Nd|Pm|Sm|Eu|Gd|Tb|"
    "Dy|Ho|Er|Tm|Yb|Lu|Hf|Ta|W|Re|Os|Ir|Pt|Au|Hg|Tl|Pb|Bi|Po|At|Rn|Fr|Ra|Ac|Th|Pa|U|Np|Pu|Am|Cm|"
    "Bk|Cf|Es|Fm|Md|No|Lr|Rf|Db|Sg|Bh|Hs|Mt|Ds|Rg|Cn|Nh|Fl|Mc|Lv|Ts|Og|A|Q|*|LP").split("|")


def spellings(values, width=3):
    """Every way to write one of the values in a field, as one alternative after another."""
    signed, out = min(values) < 0, []
    for value in values:
        for digits in range(1, width + 1):
            plain = "%0*d" % (digits, abs(value))
            texts = [plain] if value >= 0 else []
            texts += ["+" + plain] if signed and value >= 0 else []
            texts += ["-" + plain] if signed and value <= 0 else []
            out += [(" " * before + t).ljust(width) for t in texts for before in range(width - len(t) + 1)]
        if value == 0:
            out.append(" " * width)
    return "(?:%s)" % "|".join(re.escape(text) for text in sorted(set(out)))


ANY = "[ -~]"
LINE = ANY + "{80}\n"
TITLE = "(?![ -~]*(?:[$]{4}|[$]MDL|[$]RXN|[$]RDFILE))" + LINE
COUNT = spellings(range(LIMIT + 1))
COUNTS = ("(" + COUNT + ")(" + COUNT + ")" + spellings([0]) + ANY * 3 + spellings([0, 1])
          + spellings([0]) + ANY * 15 + " V2000 {41}\n")
XYZ = "(?: {10}|(?:%s)[.][0-9]{4})" % "|".join(
    [" " * (5 - d) + "[0-9]{%d}" % d for d in range(1, 6)]
    + [" " * (4 - d) + "-[0-9]{%d}" % d for d in range(1, 5)])
SYMBOL = "(?:%s)" % "|".join(re.escape(s.ljust(3)) for s in SYMBOLS)
HEADER = "(?=[ -~]{80}\n)> +<[ -;=?-~]{1,30}> *\n"
VALUE = "(?! +\n)(?![$]{4})(?!%s)[ -~]{80,200}\n" % HEADER
ITEM = "(?:%s(?:%s)* {80,200}\n)" % (HEADER, VALUE)
LAST = "[$]{4} {76}\n"
HEAD = re.compile(TITLE + LINE + LINE + COUNTS)


def atom_pattern(n):
    return (XYZ * 3 + " " + SYMBOL + spellings(range(-3, 5), 2) + spellings(range(8))
            + spellings(range(4)) + spellings(range(6)) + spellings([0, 1]) + spellings(range(16))
            + spellings([0, 1]) + ANY * 6 + spellings(range(n + 1)) + spellings(range(3))
            + spellings([0, 1]) + " {11}\n")


def bond_pattern(n):
    ends = spellings(range(1, n + 1))
    stereo = "(?:%s)" % "|".join([spellings([1]) + spellings([0, 1, 4, 6]),
                                  spellings([2]) + spellings([0, 3]),
                                  spellings(range(3, 9)) + spellings([0])])
    return (ends * 2 + stereo + ANY * 3 + spellings(range(3))
            + spellings([-1, 0, 1, 2, 4, 5, 8, 9, 12, 13]) + " {59}\n")


def property_pattern(n):
    kinds = []
    for tag, values in (("CHG", range(-15, 16)), ("RAD", range(4)), ("ISO", range(1, 1000))):
        entry = " " + spellings(range(1, n + 1)) + " " + spellings(values)
        for k in range(1, 9):
            kinds.append("M  %s%s(?:%s){%d} {%d}\n" % (tag, spellings([k]), entry, k, 71 - 8 * k))
    return "(?:%s)" % "|".join(kinds)


@lru_cache(maxsize=None)
def patterns(n):
    """Atom, bond and property patterns for n atoms; without atoms no such line is good."""
    if n == 0:
        return "(?!)", "(?!)", "(?!)"
    return atom_pattern(n), bond_pattern(n), property_pattern(n)


@lru_cache(maxsize=None)
def body_pattern(n, m, kind):
    atom, bond, prop = patterns(n)
    items = "" if kind == 0 else ITEM + "*" + LAST
    return re.compile("(?:%s){%d}((?:%s){%d})((?:%s)*)M  END {74}\n%s" % (
        atom, n, bond, m, prop, items))


def repeats(bonds, properties):
    """Is an end met twice in a bond, a pair twice, or an atom twice in one property?"""
    pairs = [tuple(sorted((int(b[:3]), int(b[3:6])))) for b in bonds.splitlines()]
    listed = [(p[:6], int(p[10 + 8 * k:13 + 8 * k])) for p in properties.splitlines()
              for k in range(int(p[6:9]))]
    return (any(a == b for a, b in pairs) or len(set(pairs)) < len(pairs)
            or len(set(listed)) < len(listed))


def padded(lines):
    return "".join(line.ljust(80) + "\n" for line in lines)


def record_end(text, at, kind):
    """Where the good record that begins at `at` ends, or None."""
    head = HEAD.match(text, at)
    if not head:
        return None
    n, m = (int(field) if field.strip() else 0 for field in head.groups())
    body = body_pattern(n, m, kind).match(text, head.end()) if m <= n * (n - 1) // 2 else None
    return None if body is None or repeats(*body.groups()) else body.end()


def good_file(lines, kind):
    """The number of records if these lines are a good file, else None."""
    text, at, records = padded(lines), 0, 0
    while at < len(text) or (kind == 0 and records == 0):
        at = record_end(text, at, kind)
        records += 1
        if at is None or (kind == 0 and at < len(text)):
            return None
    return records


PLAIN_COUNTS = "  0  0".ljust(33) + " V2000"
PLAIN_ATOM = " " * 31 + "C"


def endings(lines, kind):
    """A few plain ways on from these lines of one record; one of them works if any does."""
    last = [] if kind == 0 else ["$$$$"]
    for k in range(4):
        yield [""] * k + [PLAIN_COUNTS, "M  END"] + last
    for tail in (["M  END"] + last, last, [""] + last):
        yield tail
    if len(lines) > 3:
        n, m = (int("0" + "".join(c for c in lines[3][a:a + 3] if c in "0123456789"))
                for a in (0, 3))
        atoms = max(0, n - (len(lines) - 4))
        owed = m - max(0, len(lines) - 4 - n)
        taken = {frozenset((line[:3].strip().lstrip("0"), line[3:6].strip().lstrip("0")))
                 for line in lines[4 + n:]}
        free = ("%3d%3d  1" % (a, b) for a in range(1, n + 1) for b in range(1, a)
                if frozenset((str(a), str(b))) not in taken)
        yield [PLAIN_ATOM] * atoms + list(islice(free, max(0, owed))) + ["M  END"] + last


def finishable(lines, kind):
    """Can these lines be the beginning of a good file?"""
    if kind == 0:
        return any(good_file(lines + more, 0) for more in endings(lines, 0))
    text, at = padded(lines), 0
    while at < len(text):
        after = record_end(text, at, 1)
        if after is None:
            break
        at = after
    rest = lines[text.count("\n", 0, at):]
    return not rest or any(good_file(rest + more, 1) for more in endings(rest, 1))


def judge(kind, data):
    """("accepted", N) or ("refused", line); the line of 19 is the one after the last."""
    *pieces, unfinished = data.decode("latin-1").split("\n")
    lines = [p[:-1] if p.endswith("\r") else p for p in pieces]
    records = None if unfinished else good_file(lines, kind)
    if records is not None:
        return ("accepted", records)
    low, high = 0, len(lines) + 1       # the first `low` lines can be finished, `high` can't
    while low + 1 < high:
        middle = (low + high) // 2
        if finishable(lines[:middle], kind):
            low = middle
        else:
            high = middle
    return ("refused", high)
