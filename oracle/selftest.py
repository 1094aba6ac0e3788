"""Plain tests of the oracle: `python3 selftest.py` prints what failed and then exits with 1.

Expected answers here were worked out by hand from the rules of the format.
"""

import sys

import bond_row_tests
import comparison_tests
import crosschecks
import delivery_tests
import field_tests
import formula_tests
import meaning_tests
import mending_tests
import part_tests
import piece_tests
import same_tests
import scanner_tests
import small_tests
import stock_tests
import tally_tests
import writer_tests
from counter import counter_line
from ctfile import check, fetch, item_at, read_record
from expect import FAILURES, expect
from limit import LIMIT, WIDEST
from samples import FILL, LINES, MOLFILE, SAMPLE, edit, read, tables
from writer import write_record


def refused(name, data, number, line, column, kind=1):
    """check and read_record must agree on a refusal of the only record."""
    want = ("refused", number, line, column)
    expect(name + ", check", check(kind, data), want)
    atoms, bonds = tables(LIMIT + 1, LIMIT + 2)
    expect(name + ", read", read_record(kind, data, atoms, bonds), want)
    expect(name + ", tables", (atoms, bonds),
           ([0] * (16 * LIMIT) + [FILL] * 16, [0] * (6 * LIMIT) + [FILL] * 12))
    if kind == 1:
        expect(name + ", fetch", fetch(data, b"LOT"), want)


def bench_samples():
    _, atoms, _ = read(edit(5, b"99999.9999", 1))
    expect("W1", atoms[0], 999_999_999)
    refused("W3", edit(5, b"-99999.999", 1), 7, 5, 1)
    refused("W5", edit(7, b"  0", 1), 8, 7, 1)
    refused("W5, second end", edit(7, b"  0", 4), 8, 7, 4)
    one = [LINES[k] for k in (0, 1, 2)] + [b"  1  1".ljust(33) + b" V2000", LINES[4]]
    refused("W6", b"".join(l + b"\n" for l in one), 12, 4, 4)
    ring = LINES[:3] + [b"  3  3".ljust(33) + b" V2000"] + [LINES[4]] * 3 + [
        b"  1  2  1", b"  2  3  1", b"  3  1  1", b"M  END", b"$$$$", b""]
    expect("W7", check(1, b"\n".join(ring)), ("accepted", 1))
    start, end = fetch(SAMPLE, b"LOT")[1:]
    expect("W8", SAMPLE[start:end], b"00417")
    expect("W9", check(1, edit(11, b">98%")), ("accepted", 1))
    refused("W10", edit(drop=12), 17, 12, 1)
    expect("W11, kind 1", check(1, b""), ("accepted", 0))
    expect("W11, kind 0", check(0, b""), ("refused", 19, 1, 1))
    answer, atoms, bonds = read(SAMPLE)
    expect("W12, charge", (atoms[5], atoms[16 + 5]), (0, -1))
    room = bytearray(265)
    written = write_record(atoms, bonds, 2, 1, 0, SAMPLE[:17], SAMPLE[244:260], room)
    expect("W12, written", (written, bytes(room)), (("accepted", 265), SAMPLE))


def sample_record():
    answer, atoms, bonds = read(SAMPLE)
    expect("sample", answer, ("accepted", 2, 1, 0, 265, 0, 17, 244, 260))
    expect("sample, atom 2", atoms[16:32], [12500, -8250, 0, 8, 0, -1] + [0] * 10)
    expect("sample, bond", bonds[:6], [1, 2, 1, 0, 0, 0])
    expect("sample, fetch", fetch(SAMPLE, b"LOT"), ("found", 253, 258))
    expect("molfile", read(MOLFILE, 0)[0], ("accepted", 2, 1, 0, 244, 0, 17, 244, 244))
    expect("molfile, check", check(0, MOLFILE), ("accepted", 1))
    bare = MOLFILE + b"$$$$\n"
    expect("no items", read(bare)[0], ("accepted", 2, 1, 0, 249, 0, 17, 244, 244))
    crlf = SAMPLE.replace(b"\n", b"\r\n")
    expect("CR LF", read(crlf)[0], ("accepted", 2, 1, 0, 278, 0, 20, 253, 272))
    expect("CR LF, fetch", fetch(crlf, b"LOT"), ("found", 263, 268))
    expect("more after the record", read(SAMPLE + b"\x00" * 300)[0], answer)


def easy_mistakes():
    start, end = fetch(edit(11, b"000"), b"LOT")[1:]
    expect("zeros of a code stay", edit(11, b"000")[start:end], b"000")
    ring = LINES[:3] + [b"  3  2".ljust(33) + b" V2000"] + [LINES[4]] * 3
    refused("1-2 and 2-1", b"\n".join(ring + [b"  1  2  1", b"  2  1  2", b""]), 11, 9, 1)
    _, atoms, _ = read(edit(8, b"M  CHG  1   1   0"))
    expect("code of an unlisted atom", atoms[16 + 5], 0)
    _, atoms, _ = read(edit(drop=8))
    expect("code without a line", atoms[16 + 5], -1)
    _, atoms, _ = read(edit(6, b"4", 39))
    expect("code 4 beside M  CHG", atoms[16 + 5:16 + 7], [-1, 0])
    _, atoms, _ = read(edit(8, b"M  RAD  1   1   3"))
    expect("charge code beside M  RAD", (atoms[21], atoms[6], atoms[22]), (0, 3, 0))
    _, atoms, _ = read(edit(8, b"M  ISO  1   1  13").replace(b"O   0", b"O  -2"))
    expect("mass difference beside M  ISO", (atoms[7], atoms[23], atoms[20]), (13, 0, 0))


def refusals_by_hand():
    expect("1", check(2, b"\x00"), ("refused", 1, 0, 0))
    refused("3 in a title", edit(1, b"x" * 81), 3, 1, 81)
    refused("3 before 4", edit(1, b"\x00" * 81), 3, 1, 81)
    refused("3 at a value", edit(11, b"x" * 201), 3, 11, 201)
    refused("3 at a blank", edit(12, b" " * 201), 3, 12, 201)
    refused("3 at a header", edit(10, b">  <LOT>" + b" " * 73), 3, 10, 81)
    refused("3 at $$$$", edit(13, b"$$$$" + b" " * 77), 3, 13, 81)
    refused("4", edit(2, b"ab\x7fc\x00"), 4, 2, 3)
    refused("4 before 5", edit(1, b"$$$$\t"), 4, 1, 5)
    refused("4 in skipped columns", edit(4, b"\x80", 20), 4, 4, 20)
    refused("4 by a second CR", edit(3, b"ab\r\r"), 4, 3, 3)
    for tag in (b"$$$$", b"a$MDL", b"$RXN", b"  $RDFILE 1"):
        refused("5", edit(1, tag), 5, 1, 1)
    refused("6", edit(4, b" V3000", 34), 6, 4, 34)
    refused("6, line too short", edit(4, LINES[3][:38]), 6, 4, 34)
    refused("7 in n", edit(4, b"2 2", 1), 7, 4, 1)
    refused("7 by a minus", edit(4, b" -0", 4), 7, 4, 4)
    refused("7 by a plus", edit(4, b"+1 ", 4), 7, 4, 4)
    refused("7 by a plus in a charge code", edit(6, b" +5", 37), 7, 6, 37)
    refused("7 by a sign alone", edit(5, b"+ ", 35), 7, 5, 35)
    refused("7 by the line's end after a sign", edit(7, b"  1  2  1  0  0  0 -"), 7, 7, 19)
    refused("7 by a space after a sign", edit(8, b"M  CHG  1   2 + 1"), 7, 8, 15)
    refused("7 by a space between digits", edit(7, b"1 2", 19), 7, 7, 19)
    refused("7 before 8", edit(5, b"9 9", 49), 7, 5, 49)
    refused("7 in an entry count", edit(8, b"M  CHG +1   2  -1"), 7, 8, 7)
    refused("7 in an entry's atom", edit(8, b"M  CHG  1  +2  -1"), 7, 8, 11)
    refused("7 by a plus in a radical", edit(8, b"M  RAD  1   2  +1"), 7, 8, 15)
    refused("7 by a plus in an isotope", edit(8, b"M  ISO  1   2 +13"), 7, 8, 15)
    refused("7 by a plus in a coordinate", edit(5, b"   +1.0000", 1), 7, 5, 1)
    refused("7 by a coordinate at the left", edit(5, b"0.0000    ", 1), 7, 5, 1)
    refused("7 in y", edit(5, b"    0.000 ", 11), 7, 5, 11)
    for above in range(LIMIT + 1, WIDEST + 1)[:1]:      # no such number where three columns cannot hold it
        refused("8 in n", edit(4, b"%3d" % above, 1), 8, 4, 1)
        refused("8 in m before 12", edit(4, b"%3d" % above, 4), 8, 4, 4)
    refused("8 at the left", edit(5, b"8  ", 37), 8, 5, 37)
    refused("8 after a plus", edit(8, b"M  CHG  1   2 +16"), 8, 8, 15)
    refused("10 in two spellings", edit(7, b"2    2", 1), 10, 7, 1)
    refused("14 in two spellings", edit(8, b"M  CHG  2 2    -1  02   1"), 14, 8, 19)
    refused("8 in atom lists", edit(4, b"  1", 7), 8, 4, 7)
    refused("8 in chiral", edit(4, b"  2", 13), 8, 4, 13)
    refused("8 in stext", edit(4, b"  1", 16), 8, 4, 16)
    refused("8 in mass", edit(5, b"-4", 35), 8, 5, 35)
    refused("8 in map", edit(5, b"  3", 61), 8, 5, 61)
    refused("8 in stereo", edit(7, b"  3", 10), 8, 7, 10)
    refused("8 in centre", edit(7, b"  3", 19), 8, 7, 19)
    refused("8 by no number", edit(8, b"M  ISO  1   2"), 8, 8, 15)
    refused("9", edit(5, b"CL ", 32), 9, 5, 32)
    refused("9, second column", edit(5, b" C ", 32), 9, 5, 32)
    refused("10", edit(7, b"  2", 1), 10, 7, 1)
    refused("10 after 15", edit(7, b"  2  2  1  0  0  0  0 x"), 15, 7, 23)
    refused("12", edit(4, b"  2", 4), 12, 4, 4)
    refused("12 before 8 in columns 7-9", edit(4, b"  2  1", 4), 12, 4, 4)
    refused("13", edit(9, b"M END"), 13, 9, 1)
    refused("13, blank", edit(9, b""), 13, 9, 1)
    refused("14", edit(8, b"M  CHG  2   2  -1   2   1"), 14, 8, 19)
    refused("14, second line", edit(9, b"M  CHG  1   2   1"), 14, 9, 11)
    refused("14 after 8", edit(8, b"M  CHG  2   2  -1   3   1"), 8, 8, 19)
    refused("15 in column 31", edit(5, b".", 31), 15, 5, 31)
    refused("15 after the counts", edit(4, b"x", 80), 15, 4, 80)
    refused("15 in an entry", edit(8, b"-", 14), 15, 8, 14)
    refused("15 by a surplus entry", edit(8, b"M  CHG  1   2  -1   1   1"), 15, 8, 21)
    refused("15 after M  END", edit(9, b"M  END 7"), 15, 9, 8)
    refused("8 by a missing entry", edit(8, b"M  CHG  2   2  -1"), 8, 8, 19)
    refused("16, blank", edit(10, b""), 16, 10, 1)
    refused("16, never 15", edit(13, b"$$$$ x"), 16, 13, 1)
    refused("16, long name", edit(10, b">  <" + b"n" * 31 + b">"), 16, 10, 1)
    refused("17, $$$$", edit(11, b"$$$$" + b"x" * 196), 17, 11, 1)
    refused("17, header", edit(11, b"> <A>" + b" " * 75), 17, 11, 1)
    refused("18", MOLFILE + b"\n", 18, 10, 1, kind=0)
    refused("3 before 18", MOLFILE + b" " * 81 + b"\n", 3, 10, 81, kind=0)
    refused("19 without bytes", b"", 19, 1, 1, kind=0)
    refused("19 by an unfinished line", MOLFILE + b"\x00", 19, 10, 1, kind=0)
    refused("19 before $$$$", SAMPLE[:260], 19, 13, 1)
    refused("19 within $$$$", SAMPLE[:264], 19, 13, 1)
    expect("19 after a record", check(1, SAMPLE + b"x"), ("refused", 19, 14, 1))
    expect("5 by a second $$$$", check(1, SAMPLE + b"$$$$\n"), ("refused", 5, 14, 1))
    expect("17 in a second record", check(1, SAMPLE + edit(drop=12)), ("refused", 17, 25, 1))
    expect("22", fetch(SAMPLE, b"lot"), ("refused", 22, 0, 0))
    expect("a record reader without bytes", read(b"")[0], ("refused", 19, 1, 1))


def good_by_hand():
    for name, data in (
            ("header-shaped value of 81 columns", edit(11, b">  <LOT>" + b" " * 73)),
            ("value of 200 columns", edit(11, b"x" * 200)),
            ("blank of 200 columns", edit(12, b" " * 200)),
            ("tags in the second line", edit(2, b"$$$$ $MDL")),
            ("item without values", edit(drop=11)),
            ("short atom line", edit(5, b" " * 31 + b"C")),
            ("minus zero", edit(5, b"-0.0000", 4)),
            ("minus zero in mass", edit(5, b"-0", 35)),
            ("leading zeros", edit(7, b"001002001")),
            ("counts at the left", edit(4, b"2  1  0  0  0  0  ", 1)),
            ("an atom's numbers at the left", edit(6, b"+05  " + b"0  " * 10, 35)),
            ("digits at the line's end", edit(7, b"  1  2 1")),
            ("a bond at the left", edit(7, b"1  2  1  0  0  0  +1 ")),
            ("an entry at the left", edit(8, b"M  CHG1   2   +1")),
            ("title of 80 columns", edit(1, b"$$$" + b"x" * 77))):
        expect(name, check(1, data), ("accepted", 1))
    _, atoms, bonds = read(edit(8, b"M  CHG 2  2   +1   1  -2").replace(b"  1  2  1  0", b"1  02  1 1"))
    expect("numbers in other spellings", (atoms[5], atoms[21], bonds[:4]), (-2, 1, [1, 2, 1, 1]))
    double = SAMPLE[:253] + b"1\n2\n\n> <LOT>\n3\n\n>  <E>\n\n$$$$\n"
    start, end = fetch(double, b"LOT")[1:]
    expect("first item of a name, all its lines", double[start:end], b"1\n2")
    expect("an item without values", fetch(double, b"E"), ("found", 0, 0))
    expect("steps", [item_at(double, at) for at in (244, 258, 270, 277)],
           [("item", 248, 251, 253, 256, 258, 4), ("item", 261, 264, 266, 267, 269, 3), ("refused", 16, 1, 1), ("end", 282)])
    expect("a name of one space", item_at(b">  < >\n\n", 0), ("item", 4, 5, 0, 0, 8, 2))
    expect("steps refused", [item_at(text, 0) for text in (b"", b"> <A>", b"> <A>\nv\n", b"> <A>\n$$$$\n", b"$$$$ x\n")],
           [("refused", 19, 1, 1), ("refused", 19, 1, 1), ("refused", 19, 3, 1), ("refused", 17, 2, 1), ("refused", 16, 1, 1)])


def counting():
    expect("no input", counter_line(b""), "accepted 0")
    expect("three records", counter_line(SAMPLE * 3), "accepted 3")
    expect("a refusal", counter_line(edit(drop=12)), "refused 17 line 12 column 1")
    expect("lines of the input", counter_line(SAMPLE + edit(drop=12)), "refused 17 line 25 column 1")
    expect("too long", counter_line(SAMPLE + b"x" * 65537), "record 2 too long")
    expect("just not too long", counter_line(SAMPLE + b"x" * 65536), "refused 19 line 14 column 1")
    expect("LF as the last byte", counter_line(b"x" * 65535 + b"\n" + SAMPLE),
           "refused 3 line 1 column 81")


MODULES = (
    meaning_tests,
    comparison_tests,
    bond_row_tests,
    writer_tests,
    part_tests,
    scanner_tests,
    field_tests,
    small_tests,
    formula_tests,
    piece_tests,
    tally_tests,
    delivery_tests,
    mending_tests,
    same_tests,
    stock_tests,
    crosschecks)

if __name__ == "__main__":
    tests = [bench_samples, sample_record, easy_mistakes, refusals_by_hand, good_by_hand, counting]
    for test in tests + [test for module in MODULES for test in module.ALL]:
        before = len(FAILURES)
        try:
            test()
        except Exception as problem:
            FAILURES.append("%s stopped: %r" % (test.__name__, problem))
        print("%-36s %s" % (test.__name__, "ok" if len(FAILURES) == before else "FAILED"))
    for failure in FAILURES[:40]:
        print(failure)
    sys.exit(1 if FAILURES else 0)
