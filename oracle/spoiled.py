"""SDfiles that want mending: blanks added, blanks lost, the end cut or lengthened."""

from damage import damaged
from generate import file_rows, good_drafts, to_bytes
from samples import MOLFILE, SAMPLE, edit

TAILS = [               # a record's lines after `M  END`, one repair each, then several
    b">  <A>\n1\n\n$$$$", b">  <A>\n1\n$$$$\n", b">  <A>\n1\n> <B>\n\n$$$$\n", b">  <A>\n$$$$\n", b">  <A>\n> <B>\n\n$$$$\n",
    b"\n>  <A>\n1\n\n$$$$\n", b"\n$$$$\n", b" " * 300 + b"\n$$$$\n", b">  <A>\n1\n  \n\n$$$$\n", b"$$$$\n\n", b"$$$$\n\n \n\r\n", b"$$$$\n\n  ",
    b"$$$$\r", b">  <A>\n1\n$$$$", b"\n>  <A>\n1\n$$$$\n \n ", b">  <A>\n1\n$$$$  \n", b">  <A>\n" + b"$$$$".ljust(80) + b"\n",
    b">  <A>\n" + b"$$$$".ljust(81) + b"\n", b">  <A>\n1\n$$$$x\n", b">  <A>\n1\n\nx\n$$$$\n", b">  <A>\n" + b" " * 200 + b"\n$$$$\n",
    b">  <A>\n" + b" " * 201 + b"\n$$$$\n", b">  <A>\n1\n" + b"> <B>".ljust(81) + b"\n$$$$\n"]


def spoiled(rng, data):
    """A file with some of this done to it."""
    lines = data.split(b"\n")
    for _ in range(rng.choice([1, 1, 2, 4])):
        at = rng.randrange(len(lines))
        blanks = [k for k, line in enumerate(lines) if line.strip(b" \r") == b""]
        choice = rng.randrange(4)
        if choice == 0:
            lines.insert(at, rng.choice([b"", b" ", b"\r", b" " * 90, b" " * 250]))
        elif choice == 1 and blanks:
            del lines[rng.choice(blanks)]
        elif choice == 2:
            lines += rng.choice([[b""], [b" "], [b"", b""], [b"\r", b"  "]])
        lines = lines or [b""]
    data = b"\n".join(lines)
    return data[:-1] if rng.random() < 0.3 else data


def fixed_spoiled():
    """Each repair alone and together, with either line end, and a file cut anywhere."""
    for tail in TAILS:
        yield MOLFILE + tail
        yield (MOLFILE + tail).replace(b"\n", b"\r\n")
        yield SAMPLE + MOLFILE + tail
    for data in (b"", b"\n", b" ", b"\n\n", b"\n" * 9, b"\r", b"\r\n \n", edit(drop=12) * 2, edit(drop=12) + edit(4, b"x", 1)):
        yield data
    whole = edit(drop=12) + SAMPLE.replace(b"\n", b"\r\n") + b"\n \n"
    for size in range(0, len(whole) + 1, 3):
        yield whole[:size]


def any_spoiled(rng):
    choice = rng.random()
    if choice < 0.15:
        return damaged(rng, 1)
    data = to_bytes(rng, file_rows(rng, good_drafts(rng, 1), 1))
    return data if choice < 0.2 else spoiled(rng, data)
