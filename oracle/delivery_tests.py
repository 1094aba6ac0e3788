"""Tests of two deliveries compared: by hand, and that the list is empty exactly if the readings are the same."""

import random

from ctfile import sdfile
from changed import changed
from deliveries import Difference, compare, compare_into, json_line, seven
from expect import expect
from formulas import record
from generate import draft_record, file_rows, good_drafts, plain_bytes, to_bytes
from lines import Refusal, Sheet
from samples import LINES, SAMPLE, edit, tables
from writer import catalogue_text


def four():
    return [list(table) for table in (*tables(), *tables())]


def told(old, new):
    return [json_line(difference) for difference in compare(old, new)]


def changes_by_hand():
    for name, new, want in (
            ("nothing", SAMPLE, []), ("line ends", SAMPLE.replace(b"\n", b"\r\n"), []),
            ("a header's spaces", SAMPLE.replace(b">  <", b">    <"), []),
            ("columns not read", edit(4, b"xyz", 19), []), ("a code that M  CHG voids", edit(6, b"  0", 37), []),
            ("a blank of spaces", edit(12, b"   "), []),
            ("one zero", edit(11, b"0417"), ['{"record":1,"part":"value","item":1,"line":1,"old":"00417","new":"0417"}']),
            ("a coordinate", edit(6, b"1.2600", 5), ['{"record":1,"part":"atom","number":2,"field":"x","old":12500,"new":12600}']),
            ("a symbol", edit(6, b"S", 32), ['{"record":1,"part":"atom","number":2,"field":"symbol","old":"O","new":"S"}']),
            ("a bond", edit(7, b"2", 9), ['{"record":1,"part":"bond","number":1,"field":"type","old":1,"new":2}']),
            ("chiral", edit(4, b"1", 15), ['{"record":1,"part":"chiral","old":0,"new":1}']),
            ("a header line", edit(3, b"drum 4"), ['{"record":1,"part":"header","line":3,"old":"drum 3","new":"drum 4"}']),
            ("a trailing space", edit(11, b"00417 "), ['{"record":1,"part":"value","item":1,"line":1,"old":"00417","new":"00417 "}']),
            ("a name", edit(10, b">  <LOT2>"), ['{"record":1,"part":"name","item":1,"old":"LOT","new":"LOT2"}']),
            ("no value line", edit(drop=11), ['{"record":1,"part":"value","item":1,"line":1,"old":"00417","new":null}']),
            ("a record more", SAMPLE * 2, ['{"record":2,"part":"record","only":"new"}']),
            ("no record", b"", ['{"record":1,"part":"record","only":"old"}']),
            ("a bond less", edit(4, b"  0", 4).replace(LINES[6] + b"\n", b""), ['{"record":1,"part":"bonds","old":1,"new":0}'])):
        expect("changes, " + name, told(SAMPLE, new), want)
    old = record((b"C", b"O"), [(b"A", [b"1"]), (b"B", [b"2", b"3"])])
    new = record((b"C",), [(b"B", [b"2", b"3"]), (b"B", [b"2"]), (b"C", [b"4", b"5"])])
    expect("items place by place", told(old, new), [
        '{"record":1,"part":"atoms","old":2,"new":1}', '{"record":1,"part":"name","item":1,"old":"A","new":"B"}',
        '{"record":1,"part":"value","item":1,"line":1,"old":"1","new":"2"}',
        '{"record":1,"part":"value","item":1,"line":2,"old":null,"new":"3"}',
        '{"record":1,"part":"value","item":2,"line":2,"old":"3","new":null}', '{"record":1,"part":"item","item":3,"only":"new"}'])
    expect("names differ and values not", compare(record((), [(b"A", [b"1"])]), record((), [(b"B", [b"1"])])),
        [Difference(1, "name", (1,), b"A", b"B")])


def refused_comparisons():
    bad, worse = edit(drop=12), SAMPLE + b"x"
    for old, new, want in ((bad, worse, (36, 12, 1)), (worse, SAMPLE, (36, 14, 1)), (SAMPLE, bad, (37, 12, 1)), (b"", worse, (37, 14, 1))):
        try:
            compare(old, new)
            expect("refused", None, want)
        except Refusal as refusal:
            expect("refused", refusal.args, want)
    expect("39", compare_into(SAMPLE, edit(11, b"1"), four(), 0), (("refused", 39, 0, 0), []))
    expect("room enough", compare_into(SAMPLE, edit(11, b"1"), four(), 1)[0], ("changes", 1))
    expect("no room needed", compare_into(SAMPLE, SAMPLE, four(), 0), (("changes", 0), []))
    for k in range(4):
        short = four()
        short[k].pop()
        whole = [list(table) for table in short]
        expect("2 first", (compare_into(bad, bad, short, 9)[0], short), (("refused", 2, 0, 0), whole))
    expect("36 before 39", compare_into(bad, SAMPLE, four(), 0)[0], ("refused", 36, 12, 1))


def sevens_by_hand():
    old = record((b"C", b"O"), [(b"A", [b"1"]), (b"B", [b"2", b"3"])])
    new = record((b"S",), [(b"B", [b"2", b"3"]), (b"B", [b"2"]), (b"C", [b"4", b"5"])])
    expect("seven numbers", [seven(difference) for difference in compare(old, new + old)], [
        [1, 2, 0, 0, 0, 2, 1], [1, 5, 1, 4, 0, 6, 16], [1, 7, 1, 0, 0, 0, 0], [1, 8, 1, 1, 0, 0, 0], [1, 8, 1, 2, 2, 0, 0],
        [1, 8, 2, 2, 1, 0, 0], [1, 9, 3, 0, 2, 0, 0], [2, 10, 0, 0, 2, 0, 0]])
    expect("a title, a bond's type and chiral", [seven(difference) for difference in compare(SAMPLE, edit(1, b"").replace(
        b"  1  2  1", b"  1  2  2").replace(b"  2  1  0  0  0", b"  2  1  0  0  1"))], [
            [1, 1, 1, 0, 0, 0, 0], [1, 4, 0, 0, 0, 0, 1], [1, 6, 1, 3, 0, 1, 2]])


def same_reading_exactly():
    """The other spelling of a file has no differences; a change shows exactly if the reading has it; sides exchange."""
    for k in range(250):
        drafts = good_drafts(random.Random(k), 1)
        again = good_drafts(random.Random(k), 1)
        rng = random.Random(900 + k)
        old = to_bytes(rng, file_rows(rng, drafts, 1))
        if k % 3:
            for draft in again:
                changed(rng, draft)
            if rng.random() < 0.2:
                again.append(draft_record(rng))
        new = to_bytes(rng, file_rows(rng, again, 1))
        found = compare(old, new)
        readings = [[record.reading() for record in sdfile(Sheet(data))] for data in (old, new)]
        expect("empty %d" % k, not found, readings[0] == readings[1])
        expect("canonical %d" % k, not found, catalogue_text(old) == catalogue_text(new))
        expect("exchanged %d" % k, [d.exchanged() for d in found], compare(new, old))
        expect("sides %d" % k, all(d.old != d.new for d in found), True)
        expect("none twice %d" % k, len({d[:3] for d in found}), len(found))


def one_zero_in_many():
    rng = random.Random(4)
    many = plain_bytes(file_rows(rng, [draft_record(rng, 1, 0, 0) for _ in range(40)], 1))
    found = compare(many + SAMPLE + many, many + edit(11, b"0417") + many)
    expect("one zero in many", found, [Difference(41, "value", (1, 1), b"00417", b"0417")])


ALL = [changes_by_hand, sevens_by_hand, refused_comparisons, same_reading_exactly, one_zero_in_many]
