"""Tests of formulas: by hand, against the trees they were drafted from, and against a reading by replacement."""

import random
import re
from collections import Counter

from cases import answers, digest, formula_case
from expect import expect
from formula import ELEMENTS, FOUND, compare_formula, multiplied_out
from formulas import DEEP, GOOD, HIGH, NAMES, NO_FORMULA, OTHERS, any_record, draft_formula, fixed_records, record, sent
from limit import LIMIT
from samples import FILL, SAMPLE, read, tables
from small import small_refusals

NUMBER = {name: number for number, name in enumerate(NAMES, 1)}


def told(data, atoms=LIMIT, bonds=LIMIT):
    """The answer, the rows found, and the tables."""
    found, lent = [FILL] * FOUND, tables(atoms, bonds)
    answer = compare_formula(data, *lent, found)
    rows = [tuple(found[k:k + 3]) for k in range(0, FOUND, 3)]
    return answer, [row for row in rows if row != (0, 0, 0)], lent


def number_of(text, symbols=(b"C", b"O")):
    answer = told(sent(text, symbols))[0]
    return answer[1] if answer[0] == "refused" else 0


def formulas_by_hand():
    for text, want in (
            (b"C", {"C": 1}), (b"Co", {"Co": 1}), (b"CO", {"C": 1, "O": 1}), (b"Ca(OH)2", {"Ca": 1, "O": 2, "H": 2}),
            (b"C2H6O", {"C": 2, "H": 6, "O": 1}), (b"Al2(SO4)3", {"Al": 2, "S": 3, "O": 12}), (b"((C2)3O)4", {"C": 24, "O": 4}),
            (b"Fe4(Fe(CN)6)3", {"Fe": 7, "C": 18, "N": 18}), (b"CC2C", {"C": 4}), (b"HHe", {"H": 1, "He": 1}),
            (b"SnSN", {"Sn": 1, "S": 1, "N": 1}),
            (b"(C101)99", {"C": 9999}), (b"C(C(C)2)3", {"C": 1 + 3 * 3})):
        counts, deepest = multiplied_out(text)
        expect("formula %s" % text, counts, Counter({NUMBER[name]: count for name, count in want.items()}))
    for text, want in ((b"C", 0), (b"(C)", 1), (b"(C)(O)", 1), (b"((C)O)(O)", 2), (b"(" * 8 + b"C" + b")" * 8, 8),
            (b"(" * 9 + b"C" + b")" * 9, 9)):
        expect("depth of %s" % text, multiplied_out(text)[1], want)
    expect("symbols", [ELEMENTS[s] for s in (b"H", b"Og", b"Co")] + [len(ELEMENTS)], [1, 118, 27, 118])
    expect("no wrapping", multiplied_out(b"(" * 9 + b"C999" + b")999" * 9)[0][6], 999 ** 10)


def refusals_of_formulas():
    for texts, number in ((NO_FORMULA, 31), (GOOD, 0), (DEEP, 32), (HIGH, 33)):
        for text in texts:
            expect("%d of %s" % (number, text), number_of(text), number)
            for other in OTHERS:
                expect("%d of %s before 34" % (number, text), number_of(text, (b"C", other)), number or 34)
    for name, items, number in (("no item", [], 22), ("another name", [(b"formula", [b"C"])], 22),
            ("no value line", [(b"FORMULA", [])], 31),
                                ("the first item counts", [(b"FORMULA", []), (b"FORMULA", [b"C"])], 31),
                                ("the first line counts", [(b"FORMULA", [b"c", b"C"])], 31)):
        for symbols in ((b"C",), (b"LP",)):
            expect(name, told(record(symbols, items))[0], ("refused", number, 0, 0))
    expect("the sample has none", told(SAMPLE)[0], ("refused", 22, 0, 0))
    for number, line, column, data in small_refusals():
        expect("the record's own refusal", told(data), (("refused", number, line, column), [], tables(fill=0)))
    for atoms, bonds in ((LIMIT - 1, LIMIT), (LIMIT, LIMIT - 1), (0, 0)):
        expect("2 changes nothing", told(b"", atoms, bonds), (("refused", 2, 0, 0), [(FILL,) * 3] * 118, tables(atoms, bonds)))


def elements_that_differ():
    for text, symbols, want in (
            (b"CO", b"C O", []), (b"Co", b"Co", []), (b"CO", b"Co", [(6, 1, 0), (8, 1, 0), (27, 0, 1)]), (b"C5", b"C C", [(6, 5, 2)]),
            (b"Ca(OH)2", b"O Ca O", []), (b"Ca(OH)2", b"O H Ca O H H", []), (b"Ca(OH)2", b"O Ca", [(8, 2, 1)]), (b"H2", b"", []),
            (b"H", b"He", [(2, 0, 1)]), (b"C", b"", [(6, 1, 0)]), (b"Og", b"Og", []), (b"Og2He", b"Og", [(2, 1, 0), (118, 2, 1)]),
            (b"(C101)99", b"C", [(6, 9999, 1)])):
        data = sent(text, symbols.split())
        _, *rows = read(data)
        expect("%s drawn as %s" % (text, symbols), told(data), (("differ", len(want)), want, tuple(rows)))
    some, names = "".join(NAMES[:60]).encode(), [name.encode() for name in NAMES]
    want = [(k, 1, 0) for k in range(2, 61)] + [(k, 0, 1) for k in range(61, 119)]
    expect("every element", told(sent(some, names[60:]))[:2], (("differ", 117), want))
    expect("many elements drawn", told(sent(some, names[:60]))[0], ("differ", 0))
    data = sent(b"C", (b"LP",))
    _, *rows = read(data)
    expect("34 keeps the record's rows", told(data), (("refused", 34, 0, 0), [], tuple(rows)))


def drafted_formulas():
    """A formula says what it was drafted from."""
    rng = random.Random(51)
    for k in range(3000):
        text, counts = draft_formula(rng, depth=k % 6)
        expect("draft %s" % text, multiplied_out(text)[0], Counter({NUMBER[name]: count for name, count in counts.items()}))


UNIT = b"(?:%s)(?:[2-9]|[1-9][0-9][0-9]?)?(?![0-9])" % b"|".join(sorted((name.encode() for name in NAMES), key=len, reverse=True))
INNERMOST = re.compile(rb"\((?:%s)+\)" % UNIT)
FLAT = re.compile(b"(?:%s)+" % UNIT)


def by_replacement(text):
    """Is it a formula? Innermost groups are replaced by an element until none is left."""
    while b"(" in text:
        shorter = INNERMOST.sub(b"X", text).replace(b"X", b"Og")
        if shorter == text:
            return False
        text = shorter
    return FLAT.fullmatch(text) is not None


def formulas_by_replacement():
    rng = random.Random(52)
    letters = [b"(", b")", b"C", b"O", b"Co", b"o", b"1", b"2", b"0", b"10", b"999", b"H"]
    for k in range(4000):
        text = b"".join(rng.choice(letters) for _ in range(rng.randrange(1, 9)))
        expect("some bytes %s" % text, multiplied_out(text) is not None, by_replacement(text))
    for text in NO_FORMULA + GOOD + DEEP + HIGH:
        expect("replaced %s" % text, by_replacement(text), text not in NO_FORMULA)


def generated_records():
    """Each refusal comes, and each record is read whole."""
    rng = random.Random(53)
    numbers = Counter()
    for data in [*fixed_records(), *(any_record(rng) for _ in range(500))]:
        answer = told(data)[0]
        expect("a good record", read(data)[0][0], "accepted")
        numbers[answer[1] if answer[0] == "refused" else 0] += 1
    expect("each refusal", sorted(numbers), [0, 22, 31, 32, 33, 34])
    expect("often enough", min(numbers.values()) > 20, True)


def answered_formulas():
    line = answers(formula_case(LIMIT, LIMIT, sent(b"C5", (b"C", b"C"))))
    expect("a formula's line", line.startswith("differ 1 found %d atoms " % digest([6, 5, 2] + [0] * 351)), True)
    line = answers(formula_case(LIMIT, LIMIT, sent(b"c")))
    expect("a refusal's line", line.startswith("refused 31 line 0 column 0 found %d atoms " % digest([0] * 354)), True)
    line = answers(formula_case(LIMIT, 0, b""))
    expect("2", line.startswith("refused 2 line 0 column 0 found %d atoms " % digest(range(1000003, 1000357))), True)


ALL = [formulas_by_hand, refusals_of_formulas, elements_that_differ, drafted_formulas, formulas_by_replacement, generated_records,
       answered_formulas]
