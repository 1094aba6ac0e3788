"""Tests of the scanner log: by hand, and against the sums taken from the log itself in a plainer way."""

import random

from cases import answers, digest, replay_case
from expect import expect
from logs import any_log, event, fixed_logs, full_log, high_log
from scanner import replay

KEY, SHORT, OTHER = b"ABCD00417   ", b"ABCD417     ", b"ABCE00417   "
DAY = b"D\x01\x00\x00\x00"


def told(log):
    """Events, lots in order, sums, notes, and what ended the replay."""
    store = replay(log)
    notes = [tuple(n[:2]) + ((n.paper, n.shelf) if n.number == 0 else ()) for n in store.notes]
    return store.events, list(store.papers.items()), (store.received, store.issued), notes, store.refused


def logs_by_hand():
    expect("no log", told(b""), (0, [], (0, 0), [], None))
    expect("a day", told(DAY), (1, [], (0, 0), [], None))
    expect("low byte first", told(event(b"R", KEY, 258))[1], [(KEY, 258)])
    expect("its bytes", event(b"R", KEY, 258), b"RABCD00417   \x02\x01")
    good = event(b"R", KEY, 10) + event(b"I", KEY, 3) + DAY + event(b"C", KEY, 9) + event(b"C", KEY, 5)
    expect("a count leaves the paper figure", told(good), (5, [(KEY, 7)], (10, 3), [(4, 0, 7, 9), (5, 0, 7, 5)], None))
    apart = event(b"R", KEY, 1) + event(b"R", SHORT, 2) + event(b"R", OTHER, 4) + event(b"R", SHORT, 8)
    expect("leading zeros stay", told(apart)[1], [(KEY, 1), (SHORT, 10), (OTHER, 4)])
    expect("a receipt of 0 makes a lot", told(event(b"R", KEY, 0))[1], [(KEY, 0)])
    unknown = event(b"C", KEY, 6) + event(b"I", KEY, 0) + event(b"I", KEY, 1)
    expect("a lot never received", told(unknown), (3, [], (0, 0), [(1, 0, 0, 6), (3, 28)], None))
    emptied = event(b"R", KEY, 5) + event(b"R", SHORT, 5) + event(b"I", KEY, 5) + event(b"R", KEY, 2)
    expect("a lot at 0 keeps its place", told(emptied)[1], [(KEY, 2), (SHORT, 5)])


def refused_events():
    over = event(b"R", KEY, 5) + event(b"I", KEY, 6) + event(b"I", KEY, 5)
    expect("28 skips its event alone", told(over), (3, [(KEY, 0)], (5, 5), [(2, 28)], None))
    high = event(b"R", KEY, 65535) * 15 + b"".join(event(b"R", KEY, q) for q in (16976, 16975, 1, 0))
    expect("29 above 1,000,000", told(high), (19, [(KEY, 1_000_000)], (1_000_000, 0), [(16, 29), (18, 29)], None))
    many = b"".join(event(b"R", b"%012d" % k, 0) for k in range(512))
    more = event(b"R", KEY, 7) + event(b"R", b"%012d" % 511, 3) + event(b"C", KEY, 1) + event(b"I", KEY, 1)
    events, lots, sums, notes, ended = told(many + more)
    expect("30 at the 513th lot", (events, len(lots), lots[-1], sums, notes, ended),
           (516, 512, (b"%012d" % 511, 3), (3, 0), [(513, 30), (515, 0, 0, 1), (516, 28)], None))


def ended_replays():
    first = event(b"R", KEY, 5)
    for odd in (b"r", b"\x00", b"\n", b"S", b"E", b"\xff", b" " + first):
        expect("26 %r" % odd[:1], told(first + odd), (1, [(KEY, 5)], (5, 0), [], 26))
    for whole in (event(b"R", SHORT, 1), event(b"I", KEY, 1), event(b"C", KEY, 1), DAY):
        for cut in range(1, len(whole)):
            expect("27 %r" % whole[:cut], told(first + whole[:cut]), (1, [(KEY, 5)], (5, 0), [], 27))
        expect("whole %r" % whole, told(first + whole)[::4], (2, None))
    expect("26 before a cut body", told(b"XR")[::4], (0, 26))


def answered_logs():
    log = event(b"R", KEY, 10) + event(b"C", KEY, 12) + event(b"I", KEY, 11) + b"x"
    shown = digest([2, 0, 10, 12, -2, 3, 28, *KEY, 10])
    expect("a log's line", answers(replay_case(log)),
           "events 3 lots 1 received 10 issued 0 paper 10 counts 1 digest %d refused 26 event 4\n" % shown)
    expect("no log's line", answers(replay_case(b"")),
           "events 0 lots 0 received 0 issued 0 paper 0 counts 0 digest 1\n")


def plainly(log):
    """The same by lists alone: the movements of a lot are summed anew at each event."""
    moves, notes, at, events = [], [], 0, 0
    while at < len(log):
        size = {"R": 15, "I": 15, "C": 15, "D": 5}.get(chr(log[at]))
        if size is None or at + size > len(log):
            return events, moves, notes, 26 if size is None else 27
        kind, key, quantity = chr(log[at]), log[at + 1:at + 13], log[at + size - 2] + 256 * log[at + size - 1]
        at, events = at + size, events + 1
        paper = sum(q for k, q in moves if k == key)
        lots = {k for k, q in moves}
        if kind == "C":
            notes.append((events, 0, paper, quantity))
        elif kind == "I" and paper < quantity:
            notes.append((events, 28))
        elif kind == "I" and quantity:
            moves.append((key, -quantity))
        elif kind == "R" and key not in lots and len(lots) > 511:
            notes.append((events, 30))
        elif kind == "R" and paper + quantity > 10 ** 6:
            notes.append((events, 29))
        elif kind == "R":
            moves.append((key, quantity))
    return events, moves, notes, None


def logs_summed_plainly():
    """Over any log the paper figures add up to accepted receipts less accepted issues."""
    rng = random.Random(77)
    logs = [*fixed_logs(), full_log(rng), high_log(rng)] + [any_log(rng) for _ in range(400)]
    for k, log in enumerate(logs):
        events, moves, notes, ended = plainly(log)
        lots = list(dict.fromkeys(key for key, _ in moves))
        figures = [(key, sum(q for other, q in moves if other == key)) for key in lots]
        sums = sum(q for _, q in moves if q > 0), -sum(q for _, q in moves if q < 0)
        expect("log %d" % k, told(log), (events, figures, sums, notes, ended))
        expect("sum of log %d" % k, sum(figure for _, figure in figures), sums[0] - sums[1])


ALL = [logs_by_hand, refused_events, ended_replays, answered_logs, logs_summed_plainly]
