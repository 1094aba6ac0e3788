"""Every integer field of the lines that have columns, and texts that its columns can hold, good and bad."""

from itertools import product
from typing import NamedTuple

from damage import FIELDS, NUMBERS, limits, put


class Field(NamedTuple):
    place: str
    first: int
    width: int
    good: object            # the numbers that are good there
    tag: bytes = b""        # of a property line

    @property
    def signed(self):
        return min(self.good) < 0


def integer_fields(n):
    """The fields of a record with n atoms; of property lines the entry count and both entries of two."""
    for place, fields in FIELDS.items():
        for first, last, good in fields:
            yield Field(place, first, last - first + 1, limits(good, n))
    yield Field("bond", 10, 3, [0, 1, 4, 6])        # the stereo codes of bond type 1
    for tag, numbers in NUMBERS.items():
        yield Field("property", 7, 3, range(1, 9), tag.encode())
        for entry in (10, 18):
            yield Field("property", entry + 1, 3, range(1, n + 1), tag.encode())
            yield Field("property", entry + 5, 3, numbers, tag.encode())


def positions(text, width):
    """The text at every place of its columns."""
    return [(" " * before + text).ljust(width) for before in range(width - len(text) + 1)]


def every_text(width, letters=" +-019"):
    """All texts of these few bytes."""
    return map("".join, product(letters, repeat=width))


# d is a digit that is good in the field
TEXTS = {3: ["d  ", " d ", "+d ", " +d", "-d ", "+ d", "- d", "d d", "9 9", "+  ", "  -", " + "],
         2: ["d ", "0 ", "+d", "+0", "-d", "-0", "+ ", " +", "- ", " -", "d+", "d-"]}


def spelled_lines(plain):
    """For every field and text its place and the line there, plain but for the text; the record has two atoms."""
    for field in integer_fields(2):
        line = plain[field.place.encode()]
        if field.tag:
            line = b"M  " + field.tag + b"  2   2   1   1   1"
        digit = line[field.first + field.width - 2:][:1].decode()
        if digit == "0" and 1 in field.good:
            digit = "1"
        for text in TEXTS[field.width]:
            yield field.place.encode(), put(line, field.first, text.replace("d", digit))
