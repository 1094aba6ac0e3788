"""A short record, and ten short files for each refusal that a record can meet: the same lines with one of them spoiled."""

SHORT = [b"", b"", b"", b"  3  2".ljust(33) + b" V2000"] + [b" " * 31 + b"C"] * 3 + [
    b"  1  2  1", b"  2  3  1", b"M  CHG  1   1   1", b"M  END", b">  <FORMULA>", b"C3", b"", b"$$$$"]
COUNTS, ATOM, BOND, CHARGE, END, HEADER, VALUE, BLANK, CLOSE = 4, 6, 9, 10, 11, 12, 13, 14, 15      # lines
TIMES = 10


def over(line, column, text):
    """The line with the text written over it from that column."""
    old = SHORT[line - 1].ljust(column - 1 + len(text))
    return line, old[:column - 1] + text + old[column - 1 + len(text):]


def charges(*atoms):
    return b"M  CHG%3d" % len(atoms) + b"".join(b" %3d   1" % atom for atom in atoms)


# For each number the lines that get it, with the column named.
SPOILED = {
    3: [((line, b" " * 81), 81) for line in (1, 2, 3, COUNTS, ATOM, BOND, CHARGE, END, HEADER)] + [((VALUE, b"v" * 201), 201)],
    4: [((line, SHORT[line - 1] + byte), len(SHORT[line - 1]) + 1) for line, byte in (
        (1, b"\t"), (2, b"\x00"), (3, b"\r\r"), (COUNTS, b"\x7f"), (ATOM, b"\xff"), (BOND, b"\x1f"), (CHARGE, b"\x80"),
        (HEADER, b"\t"), (VALUE, b"\x00"), (CLOSE, b"\x0b"))],
    5: [((1, text), 1) for text in (b"$$$$", b"$MDL", b"$RXN", b"$RDFILE", b"a$MDL", b" $$$$", b"$$$$$", b"x$RXN y", b"$$MDL",
    b"$RDFILE 1")],
    6: [(over(COUNTS, 34, text), 34) for text in (b" V3000", b" v2000", b"V2000 ", b"      ", b" V200 ", b"1V2000", b" V200O",
    b"  V200", b" W2000", b" V2001")],
    7: [(over(COUNTS, 1, b"1 1"), 1), (over(COUNTS, 4, b" -1"), 4), (over(ATOM, 1, b"    1,0000"), 1), (over(ATOM, 11, b"     .0000"), 11),
        (over(ATOM, 37, b"  x"), 37), (over(BOND, 1, b"1 2"), 1), (over(BOND, 16, b" -0"), 16), (over(CHARGE, 7, b" 1."), 7),
        (over(CHARGE, 11, b" -1"), 11), (over(CHARGE, 15, b" 1-"), 15)],
    8: [(over(COUNTS, 7, b"  1"), 7), (over(COUNTS, 13, b"  2"), 13), (over(ATOM, 35, b" 5"), 35), (over(ATOM, 61, b"  4"), 61),
        (over(BOND, 1, b"  0"), 1), (over(BOND, 4, b"  4"), 4), (over(BOND, 10, b"  2"), 10), (over(CHARGE, 7, b"  9"), 7),
        (over(CHARGE, 11, b"  4"), 11), (over(CHARGE, 15, b" 16"), 15)],
    9: [(over(ATOM, 32, text), 32) for text in (b"   ", b"c  ", b"CL ", b" C ", b"Xx ", b"D  ", b"lp ", b"C1 ", b"L  ", b"Uue")],
    10: [((line, b"%3d%3d  %d" % (a, a, kind)), 1) for line, a, kind in (
        (BOND - 1, 1, 1), (BOND - 1, 2, 1), (BOND - 1, 3, 2), (BOND, 1, 1), (BOND, 2, 1), (BOND, 3, 1), (BOND, 1, 4),
        (BOND, 2, 8), (BOND, 3, 2), (BOND - 1, 1, 3))],
    11: [((BOND, pair + b"  %d" % kind), 1) for pair in (b"  1  2", b"  2  1") for kind in (1, 2, 4, 7, 8)],
    12: [(over(COUNTS, 4, b"%3d" % m), 4) for m in (4, 5, 6, 7, 9, 10, 12, 99, 100, 254)],
    13: [((END, text), 1) for text in (b"M END", b"M  ALS", b"m  END", b"", b"$$$$", b"M  CHH  1   1   1", b"END", b" M  END",
    b"M  EN", b"A    1")],
    14: [((CHARGE, charges(*atoms)), 3 + 8 * len(atoms)) for atoms in (
        (1, 1), (1, 2, 1), (1, 2, 2), (1, 2, 3, 1), (1, 2, 3, 2), (1, 2, 3, 3))] + [
        ((END, b"M  CHG  1   1%4d" % charge), 11) for charge in (0, 1, -1, 15)],
    15: [(over(COUNTS, 40, b"x"), 40), (over(COUNTS, 80, b"0"), 80), (over(ATOM, 31, b"."), 31), (over(ATOM, 70, b"0"), 70),
         (over(BOND, 22, b"1"), 22), (over(CHARGE, 10, b"0"), 10), (over(CHARGE, 14, b"-"), 14), (over(CHARGE, 18, b" 1"), 19),
         (over(END, 7, b"x"), 7), (over(END, 80, b"."), 80)],
    16: [((HEADER, text), 1) for text in (b"", b" ", b"><A>", b">  <>", b">  <A", b"> 5 <A>", b"$$$$x", b"C3", b">  <A<B>",
    b">  <" + b"n" * 31 + b">")],
    17: [((line, text), 1) for line in (VALUE, BLANK) for text in (b"$$$$", b"$$$$x", b">  <A>", b"> <LOT>  ", b"$$$$$$$$")],
}


def text_of(lines):
    return b"".join(line + b"\n" for line in lines)


def small_refusals():
    """The number, line and column that each file must meet, and its bytes."""
    for number, ways in SPOILED.items():
        for (line, text), column in ways:
            yield number, line, column, text_of(SHORT[:line - 1] + [text] + SHORT[line:])
    for line in range(len(SHORT))[-TIMES:]:
        yield 19, line + 1, 1, text_of(SHORT[:line]) + SHORT[line][:line % 3]


def small_surplus():
    """Molfiles with a line too many."""
    good = SHORT[:END]
    for text in (b"", b" ", b"$$$$", b">  <A>", b"M  END", b"x", b"x" * 80, b"C", b"$$$$ x", b"0"):
        yield 18, END + 1, 1, text_of(good + [text])
