"""The lent list of a tally, as it lies in memory, and files of suppliers from a seed."""

from damage import damaged
from formulas import record
from generate import file_rows, good_drafts, to_bytes
from lines import Refusal
from tally import LONGEST, MOST_RECORDS, MOST_SUPPLIERS, NAME, Tally, with_file

NAMES = [b"AB", b"AB ", b"ab", b"A", b"ABC", b"Z" * 24, b"0", b"00417", b"417", b"~", b" x", b"B" * 23]


class Memory:
    """Rows of 24 bytes, a length and a count each. A row moves whole; behind a new name are zeros; rows behind the list stay."""

    def __init__(self, room, entries, fill):
        names = fill(room * LONGEST)
        self.rows = [(names[LONGEST * k:LONGEST * k + LONGEST], 1000003 + k, 1000003 + k) for k in range(room)]
        for k, (name, count) in enumerate(entries):
            self.rows[k] = (name[:LONGEST] + self.rows[k][0][len(name):], len(name), count)

    def follow(self, before, after):
        """The rows of the entries that there are now, in their order."""
        old = {name: self.rows[k][0] for k, (name, _) in enumerate(before)}
        for k, (name, count) in enumerate(after):
            self.rows[k] = (old.get(name, name.ljust(LONGEST, b"\0")), len(name), count)

    def numbers(self):
        return [*b"".join(bytes(row[0]) for row in self.rows), *(row[1] for row in self.rows), *(row[2] for row in self.rows)]


def sent(*suppliers):
    """An SDfile with a record for each supplier; None for a record without the item."""
    return b"".join(record((), [] if name is None else [(NAME, [name])]) for name in suppliers)


def add(tally, room, data):
    """The answer's words and the tally after the file."""
    try:
        after = with_file(tally, room, data)
    except Refusal as refusal:
        return "refused %d line %d column %d record %d" % (*refusal.args, getattr(refusal, "record", 0)), tally
    return "accepted %d" % (after.total - tally.total), after


def listed(names, missing=0):
    """A good list of these names, each with another count."""
    entries = tuple((name, 3 + k) for k, name in enumerate(sorted(names)))
    return Tally(entries, missing, sum(count for _, count in entries) + missing)


FULL = listed([b"%02d" % k for k in range(MOST_SUPPLIERS)])
NEAR = Tally(((b"A", MOST_RECORDS - 1),), 0, MOST_RECORDS - 1)


def fixed_tallies():
    """Lists that are not good, and each refusal before and after the others."""
    two = listed([b"A", b"B"], 5)
    bad = [(two, 63)] + [(Tally(), room) for room in (0, 1, 32, 63)]
    bad += [(two._replace(entries=two.entries[::-1]), 64), (two._replace(entries=two.entries[:1] * 2), 64), (two._replace(missing=4), 64),
            (two._replace(total=two.total + 1), 64), (two._replace(total=0), 64), (Tally(((b"A" * 25, 1),), 0, 1), 64),
            (Tally(((b"A", 1000000),), 0, 1000000), 64), (Tally((), 1000000, 1000000), 64), (Tally(((b"A", 2 ** 32 - 1), (b"B", 1)), 0, 0), 64),
            (Tally(((b"A", 2 ** 31), (b"B", 2 ** 31)), 5, 5), 70), (listed([b"%02d" % k for k in range(65)]), 70), (Tally(((b"A", 1),), 2 ** 32 - 1, 0), 64)]
    for tally, room in bad:
        for data in (b"", sent(b"AB"), b"x\n"):
            yield tally, room, data
    for data in (sent(b"A" * 25), sent(b"AB", None, b"A" * 25), sent(b"A" * 24, b"A" * 25), sent(b"A" * 200), sent(b"A" * 25, b"new")):
        yield Tally(), 64, data
        yield FULL, 64, data
        yield NEAR, 66, data
    for data in (sent(b"new"), sent(b"00", None, b"63", b"64"), sent(b"new", b"A" * 25), sent(b"63 "), sent(b"0"), sent(b"99", b"00")):
        yield FULL, 64, data
        yield FULL._replace(missing=7, total=FULL.total + 7), 65, data
    for data in (sent(b"A"), sent(b"A", None), sent(None, b"A"), sent(b"A", b"A" * 25), sent(b"B", b"C"), sent(b"B") + b"x", sent(None), b""):
        yield NEAR, 64, data
        yield NEAR._replace(missing=1, total=MOST_RECORDS), 64, data
    first = [(NAME, []), (NAME, [b"AB"])], [(NAME, [b"AB", b"CD"])], [(b"supplier", [b"AB"])], [(b"LOT", [b"1"]), (NAME, [b" AB "])]
    for items in first:
        yield two, 64, record((), items)
        yield Tally(), 64, record((), items, end=b"\r\n")


def any_tally(rng):
    """A list and a file, mostly good."""
    names = rng.sample(NAMES, rng.randrange(len(NAMES) + 1)) + [b"%03d" % k for k in range(rng.choice([0, 0, 3, 51, 52, 53]))]
    tally, room = listed(set(names[:MOST_SUPPLIERS]), rng.choice([0, 0, 9])), rng.choice([64, 64, 64, 66, 70])
    choice = rng.random()
    if choice < 0.08:
        tally = tally._replace(total=rng.choice([0, tally.total + 1, 10 ** 6]))
    elif choice < 0.2:
        wanted = rng.choice([MOST_RECORDS, MOST_RECORDS - 1, MOST_RECORDS - 2])
        tally = tally._replace(missing=tally.missing + wanted - tally.total, total=wanted)
    pool = NAMES * 3 + [None] * 4 + [b"%03d" % rng.randrange(60)] + [b"Q" * rng.choice([24, 25, 30])] * (rng.random() < 0.3)
    data = sent(*(rng.choice(pool) for _ in range(rng.randrange(7))))
    choice = rng.random()
    if choice < 0.1:
        data += to_bytes(rng, file_rows(rng, good_drafts(rng, 1), 1))
    elif choice < 0.2:
        data += damaged(rng, 1)
    return tally, room, data
