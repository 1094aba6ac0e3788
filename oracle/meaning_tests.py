"""Tests of what charge codes and property lines mean together, worked out by hand."""

from expect import expect
from samples import coded, read
from writer import catalogue_text


def given(**numbers):
    """Eight numbers, all 0 but those of the atoms named: given(a2=5)."""
    return [numbers.get("a%d" % k, 0) for k in range(1, 9)]


def codes_and_lines():
    """A line of charges or of radicals voids all codes, of unlisted atoms too; isotopes and mass differences stay apart."""
    none, codes = given(), [0, 3, 2, 1, 0, -1, -2, -3]
    ones, diradical = [1] * 8, given(a5=2)
    chg, rad, iso = b"M  CHG  2   2  -4   5   1", b"M  RAD  2   3   1   5   3", b"M  ISO  1   4  13"
    for name, lines, masses, charges, radicals, isotopes in (
            ("neither", [], ones, codes, diradical, none),
            ("only isotopes", [iso], none, codes, diradical, given(a4=13)),
            ("only radicals", [rad], ones, none, given(a3=1, a5=3), none),
            ("only radicals, code 4 not listed", [b"M  RAD  1   2   1"], ones, none, given(a2=1), none),
            ("only charges", [chg], ones, given(a2=-4, a5=1), none, none),
            ("only charges, code 4 not listed", [b"M  CHG  1   6  15"], ones, given(a6=15), none, none),
            ("both", [chg, rad], ones, given(a2=-4, a5=1), given(a3=1, a5=3), none),
            ("both, radicals first", [rad, chg], ones, given(a2=-4, a5=1), given(a3=1, a5=3), none),
            ("charges in two lines", [chg, b"M  CHG  1   8   2"], ones, given(a2=-4, a5=1, a8=2), none, none),
            ("radicals beside isotopes", [iso, rad], none, none, given(a3=1, a5=3), given(a4=13)),
            ("a radical of zero", [b"M  RAD  1   1   0"], ones, none, none, none),
            ("a charge of zero", [b"M  CHG  1   1   0"], ones, none, none, none),
            ("a blank radical", [b"M  RAD  1   5"], ones, none, none, none),
            ("a blank charge", [b"M  CHG  1   5"], ones, none, none, none)):
        answer, atoms, _ = read(coded(*lines))
        got = [atoms[place:128:16] for place in (4, 5, 6, 7)]
        expect("codes, " + name, (answer[0], got), ("accepted", [masses, charges, radicals, isotopes]))
        back = read(catalogue_text(coded(*lines)))[1]
        expect("codes written and read again, " + name, back[:128], atoms[:128])
    lines = catalogue_text(coded(b"M  RAD  2   3   2   7   1")).split(b"\n")
    expect("codes written beside radicals", [int(line[36:39]) for line in lines[4:12]], given(a3=4))


ALL = [codes_and_lines]
