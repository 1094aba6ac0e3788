"""Have two SDfiles the same reading? They have exactly if their canonical texts are the same bytes.

Nothing in the library has this yet. Its case would be two files:

    same OLD_SIZE NEW_SIZE                      OLD_SIZE bytes, NEW_SIZE bytes: the SDfiles
    same RECORDS
    differ RECORD                               the first record that differs or stands in one file only
    refused FILE NUMBER line LINE column COLUMN FILE is 1 or 2, the first judged first

`python3 same.py A B` writes that line; its status is 0, 1 or 2.
"""

import sys
from itertools import zip_longest

from ctfile import sdfile
from lines import Refusal, Sheet


def records_of(data, place):
    """The readings of a file, or its refusal with its place among the two."""
    try:
        return [record.reading() for record in sdfile(Sheet(data))], None
    except Refusal as refusal:
        return [], ("refused", place, refusal.number, refusal.line, refusal.column)


def same(old, new):
    first, wrong = records_of(old, 1)
    second, also_wrong = records_of(new, 2)
    if wrong or also_wrong:
        return wrong or also_wrong
    unlike = [number for number, (a, b) in enumerate(zip_longest(first, second), 1) if a != b]
    return ("differ", unlike[0]) if unlike else ("same", len(first))


def line_of(answer):
    if answer[0] == "refused":
        return "refused %d %d line %d column %d" % answer[1:]
    return "%s %d" % answer


def main(old, new):
    with open(old, "rb") as first, open(new, "rb") as second:
        answer = same(first.read(), second.read())
    print(line_of(answer))
    return {"same": 0, "differ": 1, "refused": 2}[answer[0]]


if __name__ == "__main__":
    sys.exit(main(*sys.argv[1:]))
