"""Holds the C reader against the oracle, and prints the first difference.

    python3 bench/verify.py [SEED] [N]      N files, each judged as both kinds (default: seed 1, 4,000 files)

The files are the oracle's: good ones, aimed damage, cuts and blind damage; then one small record with every integer field set
to numbers around its limits at each place of its columns, and to every text of spaces, signs and a few digits, and with every
column of every line written over. Many cases go to one process. Inputs around the reader's buffer go in as standard input, one
process each.
"""

import collections
import os
import random
import subprocess
import sys

HERE = os.path.dirname(os.path.abspath(__file__))
sys.path[:0] = [os.path.join(HERE, "..", "oracle"), HERE]
sys.dont_write_bytecode = True

from counter_cases import around_the_buffer
from ctfile import check
from damage import damaged, put
from generate import all_symbols, file_rows, good_drafts, to_bytes
from spelled import every_text, integer_fields, positions
from vectors import SWEEP_LINES, sweep_file

OUT = os.path.join(HERE, "out")


def build(name, *flags):
    """The C reader for this machine."""
    os.makedirs(OUT, exist_ok=True)
    program = os.path.join(OUT, name)
    subprocess.run(["gcc", "-O2", "-Wall", "-Wextra", "-Werror", *flags, "-o", program, os.path.join(HERE, "reader.c")],
                   check=True)
    return program


def files(rng, count):
    """Good and damaged files of both kinds, as (name, bytes)."""
    yield "every symbol", to_bytes(rng, file_rows(rng, [all_symbols(rng)], 1))
    for k in range(count):
        kind = rng.randrange(2)
        if rng.random() < 0.3:
            large = rng.random() < 0.05
            yield "good %d" % k, to_bytes(rng, file_rows(rng, good_drafts(rng, kind, large), kind))
        else:
            yield "damaged %d" % k, damaged(rng, kind)


def small_files():
    """One record with a field set to a text, or a byte written over a column, as (name, bytes)."""
    numbers = [-99, -9, *range(-17, 18), 99, 100, 998, 999]
    for field in integer_fields(2):
        texts = set(every_text(field.width))
        for number in numbers:
            texts.update(positions(str(number)[-field.width:], field.width) + positions(("+%d" % number)[-field.width:], field.width))
        for text in sorted(texts):
            yield "%s column %d" % (field.place, field.first), changed(field.place, field.first, text, field.tag)
    for kind in range(10):
        for stereo in range(10):
            yield "bond type %d, stereo %d" % (kind, stereo), changed("bond", 7, "%3d%3d" % (kind, stereo))
    for place in SWEEP_LINES:
        for column in range(1, 82 if place != b"value" else 202):
            for byte in b"#9-+ \x1f\x7f\x80":
                yield "%s column %d, byte %d" % (place.decode(), column, byte), changed(place.decode(), column, bytes([byte]))


def changed(place, column, text, tag=b""):
    """The record with a text put into one of its lines; given a tag, into a property line of that kind."""
    line = b"M  " + tag + b"  2   2   1   1   1" if tag else SWEEP_LINES[place.encode()]
    return sweep_file(place.encode(), put(line, column, text))


def line(answer):
    if answer[0] == "accepted":
        return "accepted %d" % answer[1]
    return "refused %d line %d column %d" % answer[1:]


def differ(name, kind, data, wanted, got):
    path = os.path.join(OUT, "difference")
    with open(path, "wb") as file:
        file.write(data)
    sys.exit("%s as kind %d: the oracle says `%s`, the C reader `%s`; its bytes are in %s"
             % (name, kind, wanted, got, os.path.relpath(path)))


def main(seed, count):
    watched = build("reader-watched", "-fsanitize=address,undefined", "-fno-sanitize-recover=all")
    plain = build("reader-plain")                   # a watched one starts too slowly to be started often
    rng = random.Random(seed)
    made = [(name, kind, data) for name, data in files(rng, count) for kind in (0, 1)]
    made += [(name, 1, data) for name, data in small_files()]
    made.append(("no such kind", 2, b""))
    head = b"".join(b"check %d %d\n%s\n" % (kind, len(data), data) for _, kind, data in made)
    got = subprocess.run([watched, "cases"], input=head, stdout=subprocess.PIPE, check=True).stdout.decode().splitlines()
    if len(got) != len(made):
        sys.exit("%d cases, %d lines" % (len(made), len(got)))
    numbers = collections.Counter()
    for (name, kind, data), said in zip(made, got):
        wanted = line(check(kind, data))
        if said != wanted:
            differ(name, kind, data, wanted, said)
        numbers[" ".join(said.split()[:2]) if said.startswith("refused") else "accepted"] += 1
    streams = list(around_the_buffer(rng)) + [data for _, _, data in made[:100]]
    for data in streams:
        said = subprocess.run([plain, "1"], input=data, stdout=subprocess.PIPE, check=True).stdout.decode().strip()
        if said != line(check(1, data)):
            differ("standard input", 1, data, line(check(1, data)), said)
    print("%d cases and %d streams agree" % (len(made), len(streams)))
    print(", ".join("%s: %d" % pair for pair in sorted(numbers.items(), key=lambda p: p[0].split()[-1].zfill(9))))


if __name__ == "__main__":
    given = [int(word) for word in sys.argv[1:]]
    main(*(given + [1, 4000][len(given):]))
