"""Lines of a CTfile: where they begin and end, and the two judgements every line meets first."""

import re
from typing import NamedTuple


class Refusal(Exception):
    """A refusal carries its number, the line and the column, and nothing else."""

    def __init__(self, number, line=0, column=0):
        super().__init__(number, line, column)
        self.number, self.line, self.column = number, line, column

    def answer(self):
        return ("refused", self.number, self.line, self.column)


class Line(NamedTuple):
    text: bytes   # without LF and without one CR before it
    start: int    # first byte
    end: int      # just past the text
    next: int     # just past the LF


FORBIDDEN = re.compile(rb"[^ -~]")


def split_lines(data):
    """The complete lines, and whether bytes follow the last LF."""
    pieces = data.split(b"\n")
    unfinished = pieces.pop()
    lines, start = [], 0
    for piece in pieces:
        text = piece[:-1] if piece.endswith(b"\r") else piece
        after = start + len(piece) + 1
        lines.append(Line(text, start, start + len(text), after))
        start = after
    return lines, unfinished != b""


class Sheet:
    """The complete lines of the bytes handed in; lines are asked for by index from 0."""

    def __init__(self, data):
        self.lines, self.unfinished = split_lines(data)

    def cut_short(self):
        return Refusal(19, len(self.lines) + 1, 1)

    def take(self, index, limit=80):
        """Line `index`, after 19, 3 and 4; the limit goes by the place the line stands in."""
        if index >= len(self.lines):
            raise self.cut_short()
        line = self.lines[index]
        if len(line.text) > limit:
            raise Refusal(3, index + 1, limit + 1)
        bad = FORBIDDEN.search(line.text)
        if bad:
            raise Refusal(4, index + 1, bad.start() + 1)
        return line

    def starts_at(self, index):
        """First byte of line `index`, also for the line after the last complete one."""
        return self.lines[index - 1].next if index else 0
