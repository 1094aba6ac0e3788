"""The log of the door scanners, replayed from an empty store.

An event is one byte of kind and a body: supplier, lot and quantity for `R` received, `I` issued and
`C` counted, a day number for `D`. A lot's key is supplier and lot together, compared as bytes.
"""

import re
from typing import NamedTuple

EVENT = re.compile(rb"([RIC])(.{4}.{8})(..)|(D).{4}", re.S)
KINDS = b"RICD"
MOST_PAPER = 1_000_000
MOST_LOTS = 512


class Note(NamedTuple):
    """What is reported of one event: number 0 for a count, or the refusal that skipped it."""

    event: int
    number: int
    key: bytes
    paper: int = 0
    shelf: int = 0


class Replay:
    """A store while events come in, and what is told of it."""

    def __init__(self):
        self.papers = {}            # key to paper figure, in order of the first receipt
        self.events = self.received = self.issued = 0
        self.notes = []
        self.refused = None         # 26 or 27, which end the replay at the event after `events`

    def receive(self, key, quantity):
        if key not in self.papers and len(self.papers) == MOST_LOTS:
            return 30
        if self.papers.get(key, 0) + quantity > MOST_PAPER:
            return 29
        self.papers[key] = self.papers.get(key, 0) + quantity
        self.received += quantity
        return 0

    def issue(self, key, quantity):
        if quantity > self.papers.get(key, 0):
            return 28
        if key in self.papers:
            self.papers[key] -= quantity
        self.issued += quantity
        return 0

    def event(self, kind, key, quantity):
        """One event; a day changes nothing."""
        self.events += 1
        if kind == b"C":
            self.notes.append(Note(self.events, 0, key, self.papers.get(key, 0), quantity))
        number = {b"R": self.receive, b"I": self.issue}.get(kind, lambda *_: 0)(key, quantity)
        if number:
            self.notes.append(Note(self.events, number, key))

    def counts(self):
        return [note for note in self.notes if note.number == 0]


def replay(log):
    store, at = Replay(), 0
    while at < len(log):
        found = EVENT.match(log, at)
        if not found:
            store.refused = 27 if log[at] in KINDS else 26
            break
        kind, key, quantity, day = found.groups()
        store.event(kind or day, key, int.from_bytes(quantity or b"", "little"))
        at = found.end()
    return store
