"""Tests of mending: by hand, and against repairs that are found one by one from the judgement's own refusals."""

import random

from ctfile import check
from damage import damaged
from expect import expect
from generate import file_rows, good_drafts, to_bytes
from mending import DROPPED, ENDED, PUT, mend, mended
from samples import LINES, MOLFILE, SAMPLE, edit
from spoiled import spoiled

MOST = 10 ** 6
TAIL = b">  <A>\n1\n\n$$$$\n"         # a record's lines after `M  END`, from line 10


def told(data):
    return mend(data, MOST, MOST)


def repairs_by_hand():
    for name, tail, text, repairs in (
            ("good", TAIL, TAIL, []), ("no LF at the end", TAIL[:-1], TAIL, [(13, ENDED)]),
            ("no blank before $$$$", b">  <A>\n1\n$$$$\n", TAIL, [(12, PUT)]),
            ("no blank, no LF", b">  <A>\n1\n$$$$", TAIL, [(12, PUT), (12, ENDED)]),
            ("no blank before a header", b">  <A>\n1\n> <B>\n\n$$$$\n", b">  <A>\n1\n\n> <B>\n\n$$$$\n", [(12, PUT)]),
            ("two headers", b">  <A>\n> <B>\n\n$$$$\n", b">  <A>\n\n> <B>\n\n$$$$\n", [(11, PUT)]),
            ("$$$$ after a header", b">  <A>\n$$$$\n", b">  <A>\n\n$$$$\n", [(11, PUT)]),
            ("a blank before an item", b"\n" + TAIL, TAIL, [(10, DROPPED)]),
            ("a blank without items", b"\n$$$$\n", b"$$$$\n", [(10, DROPPED)]),
            ("two blanks before an item", b"\n   \n" + TAIL, TAIL, [(10, DROPPED), (11, DROPPED)]),
            ("two blanks after values", b">  <A>\n1\n  \n\n$$$$\n", b">  <A>\n1\n  \n$$$$\n", [(13, DROPPED)]),
            ("a blank of 300", b" " * 300 + b"\n" + TAIL, TAIL, [(10, DROPPED)]),
            ("blanks at the end", TAIL + b"\n \n\r\n", TAIL, [(14, DROPPED), (15, DROPPED), (16, DROPPED)]),
            ("five blanks at the end", TAIL + b"\n" * 5, TAIL, [(k, DROPPED) for k in range(14, 19)]),
            ("an unfinished blank at the end", TAIL + b"\n  ", TAIL, [(14, DROPPED), (15, DROPPED)]),
            ("a lone CR at the end", TAIL + b"\r", TAIL, [(14, DROPPED)]),
            ("a blank title", TAIL + edit(1, b""), TAIL + edit(1, b""), []),
            ("CR LF", b">  <A>\r\n1\r\n$$$$\r\n", b">  <A>\r\n1\r\n\n$$$$\r\n", [(12, PUT)]),
            ("in both records", (edit(drop=12) * 2)[244:-1], (SAMPLE * 2)[244:], [(12, PUT), (24, PUT), (24, ENDED)]),
            ("all four", b"\n>  <A>\n1\n$$$$\n \n ", TAIL, [(10, DROPPED), (13, PUT), (14, DROPPED), (15, DROPPED)]),
            ("spaces after $$$$", b">  <A>\n1\n$$$$  \n", b">  <A>\n1\n\n$$$$  \n", [(12, PUT)]),
            ("$$$$ of 80 columns", b">  <A>\n" + b"$$$$".ljust(80) + b"\n", b">  <A>\n\n" + b"$$$$".ljust(80) + b"\n", [(11, PUT)])):
        data, text = MOLFILE + tail, MOLFILE + text
        expect("mended, " + name, told(data), (("mended", len(text), len(repairs)), text, repairs))
    expect("no bytes", told(b""), (("mended", 0, 0), b"", []))


def not_mended():
    for name, data, want in (
            ("blanks alone", b"\n\n", (19, 3, 1)), ("a blank alone, unfinished", b" ", (19, 2, 1)), ("many blanks", b"\n" * 9, (6, 4, 34)),
            ("$$$$x at a value", edit(drop=12).replace(b"$$$$", b"$$$$x"), (17, 12, 1)),
            ("a long $$$$", edit(drop=12).replace(b"$$$$", b"$$$$" + b" " * 77), (17, 12, 1)),
            ("a bad byte in a header", edit(11, b">  <\t>"), (4, 11, 5)), ("a long blank at a value", edit(12, b" " * 201), (3, 12, 201)),
            ("a value at an item", SAMPLE.replace(b"\n\n$$$$", b"\n\nx\n$$$$"), (16, 13, 1)),
            ("a line counted in the mended text", edit(drop=12) + edit(4, b"x", 1), (7, 17, 1)),
            ("no $$$$, blanks", SAMPLE[:-5] + b"\n\n", (19, 13, 1)), ("cut in a value", SAMPLE[:256], (19, 12, 1)),
            ("cut in an atom", SAMPLE[:70], (9, 5, 32)),
            ("an unfinished blank at a value", SAMPLE[:259] + b" ", (19, 13, 1)),
            ("an unfinished CR at a value", SAMPLE[:259] + b"\r", (19, 13, 1)),
            ("something after blanks", SAMPLE + b"\n\nx\n", (19, 17, 1)),
            ("a blank in the atoms", SAMPLE.replace(LINES[5], b"\n" + LINES[5]), (9, 6, 32))):
        answer, text, repairs = told(data)
        expect("not mended, " + name, (answer, text, repairs), (("refused", *want), b"", []))
    damage = edit(drop=12)[:-1]
    expect("38", mend(damage, 264, 0), (("refused", 38, 0, 0), b"", []))
    expect("39", mend(damage, 265, 1), (("refused", 39, 0, 0), b"", []))
    expect("just enough", mend(damage, 265, 2)[0], ("mended", 265, 2))
    expect("the judgement first", mend(SAMPLE[:70], 0, 0)[0], ("refused", 9, 5, 32))


def blank(raw):
    return set(raw.replace(b"\r\n", b"\n").rstrip(b"\n")) <= {32}


def verdict(lines):
    return check(1, b"".join(lines))


def by_refusals(data):
    """The same repairs, each from what the check says of the text so far. Lines keep the number that they came with."""
    lines = data.splitlines(keepends=True) if b"\r" not in data else [l + b"\n" for l in data.split(b"\n")]
    if b"\r" in data:
        lines[-1:] = [lines[-1][:-1]] if lines[-1] != b"\n" else []
    numbers, repairs = list(range(1, len(lines) + 1)), []
    unfinished = lines and not lines[-1].endswith(b"\n")
    if unfinished:
        lines[-1] += b"\n"
    tail = len(lines)
    while tail and blank(lines[tail - 1]):
        tail -= 1
    while True:
        front = verdict(lines[:tail])
        if tail < len(lines) and tail and front[0] == "accepted":       # blanks after the last record
            repairs += [(number, DROPPED) for number in numbers[tail:]]
            lines, numbers = lines[:tail], numbers[:tail]
        answer = verdict(lines)
        if answer[0] == "accepted":
            break
        at = answer[2] - 1
        line = lines[at] if at < len(lines) else b""
        if answer[1] == 17 and not (line[:4] == b"$$$$" and (line.rstrip(b"\r\n ") != b"$$$$" or len(line.rstrip(b"\r\n")) > 80)):
            repairs.append((numbers[at], PUT))
            lines.insert(at, b"\n")
            numbers.insert(at, 0)
            tail += at < tail
        elif answer[1] in (3, 16) and line and blank(line) and verdict(lines[:at] + [b"\n"])[1:3] == (16, at + 1):
            repairs.append((numbers[at], DROPPED))
            del lines[at], numbers[at]
            tail -= at < tail
        else:
            break
    last = len(data.split(b"\n"))
    if unfinished and (last, DROPPED) not in repairs:
        repairs.append((last, ENDED))
    return b"".join(lines), sorted(repairs, key=lambda repair: (repair[0], repair[1] == ENDED))


def mended_by_refusals():
    """Both ways agree where the result is good, and on the refusal where it isn't."""
    rng = random.Random(91)
    seen = set()
    for k in range(700):
        data = to_bytes(rng, file_rows(rng, good_drafts(rng, 1), 1)) if k % 4 else damaged(rng, 1)
        data = spoiled(rng, data)
        text, repairs = mended(data)
        other, others = by_refusals(data)
        expect("mended %d" % k, check(1, text), check(1, other))
        if check(1, text)[0] == "accepted":
            expect("text %d" % k, (text, repairs), (other, others))
            expect("again %d" % k, told(text)[2], [])
            seen.update(what for _, what in repairs)
    expect("each repair came", seen, {PUT, DROPPED, ENDED})


def good_files_come_back():
    rng = random.Random(92)
    for k in range(150):
        data = to_bytes(rng, file_rows(rng, good_drafts(rng, 1), 1))
        expect("good %d" % k, told(data), (("mended", len(data), 0), data, []))


def other_lines_stay():
    """Lines that no repair names come out byte for byte, in order."""
    rng = random.Random(93)
    for k in range(200):
        data = spoiled(rng, to_bytes(rng, file_rows(rng, good_drafts(rng, 1), 1)))
        answer, text, repairs = told(data)
        if answer[0] == "refused":
            continue
        dropped, put = ({line for line, what in repairs if what == w} for w in (DROPPED, PUT))
        want = b""
        for number, line in enumerate(data.split(b"\n"), 1):
            if number in dropped or (number == data.count(b"\n") + 1 and line == b""):
                continue
            want += (b"\n" if number in put else b"") + line + b"\n"
        expect("other lines %d" % k, text, want)


ALL = [repairs_by_hand, not_mended, mended_by_refusals, good_files_come_back, other_lines_stay]
