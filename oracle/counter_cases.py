"""Inputs for the counter program, with the line it has to write.

    python3 counter_cases.py SEED N DIRECTORY     writes NNN.sdf and NNN.line

The first inputs lie around the 65,536-byte buffer; the rest are small, good and damaged.
"""

import os
import random
import sys

from counter import BUFFER, counter_line
from damage import damaged
from generate import draft_record, file_rows, good_drafts, plain_bytes, record_rows, sized_record, to_bytes
from limit import LIMIT


def around_the_buffer(rng):
    """Records, lines and ends of input that fall on, before and after the buffer's last byte."""
    small = sized_record(rng, 700)
    exact, longer = sized_record(rng, BUFFER), sized_record(rng, BUFFER + 1)
    yield b""
    yield exact
    yield longer
    yield small + exact + small
    yield small + longer + small
    yield exact + exact
    yield exact + b"x"
    yield exact[:-1]
    yield longer[:-1]                                   # 65,536 bytes and the end of input
    yield longer[:-1] + b"x"
    yield longer[:-2] + b"x\n"                          # the LF at byte 65,537 isn't seen
    yield exact[:-2] + b"x\n"                           # the LF at byte 65,536 is
    yield small + b"x" * (BUFFER - 1) + b"\n" + small
    yield small + b"x" * BUFFER + b"\n" + small
    yield b"x" * BUFFER
    yield b"x" * (BUFFER + 1)
    yield small * 200                                   # many records over several buffers
    yield small * 200 + b"$$$$\n"
    yield longer[:-5] + b"$" + longer[-5:]
    yield longer + b"$$$$\n"
    yield b"$$$$\n" + longer
    crlf = sized_record(rng, BUFFER - 1)[:-1] + b"\r\n"
    yield crlf + small
    yield sized_record(rng, BUFFER)[:-1] + b"\r\n"      # CR inside the buffer, LF outside
    large = plain_bytes(record_rows(rng, draft_record(rng, LIMIT, LIMIT, 0), 1))
    yield large                                         # good, and too long by its atoms and bonds
    yield small + large + small
    yield large[:BUFFER]
    yield large.replace(b" V2000", b" V3000")


def inputs(rng, count):
    made = list(around_the_buffer(rng))[:count]
    while len(made) < count:
        if rng.random() < 0.3:
            made.append(to_bytes(rng, file_rows(rng, good_drafts(rng, 1), 1)))
        else:
            made.append(damaged(rng, 1))
    return made


def main(seed, count, directory):
    os.makedirs(directory, exist_ok=True)
    for k, data in enumerate(inputs(random.Random(seed), count)):
        base = os.path.join(directory, "%03d" % k)
        with open(base + ".sdf", "wb") as file:
            file.write(data)
        with open(base + ".line", "w") as file:
            file.write(counter_line(data) + "\n")


if __name__ == "__main__":
    main(int(sys.argv[1]), int(sys.argv[2]), sys.argv[3])
