"""Tries python/capellanote.py against the second program: good and damaged files of both kinds, fetches, texts written back, streams.
The status is 1 where something differs; the last line says what was tried."""
import io
import os
import random
import subprocess
import sys

top = os.path.join(os.path.dirname(os.path.abspath(__file__)), "..")
sys.path[:0] = [os.path.join(top, "oracle"), os.path.join(top, "python")]
import capellanote
import ctfile
import writer
from damage import damaged
from generate import file_rows, good_drafts, sized_record, to_bytes
from lines import Sheet

tried = 0


def same(what, got, expected):
    global tried
    tried += 1
    if got != expected:
        sys.exit("%s: %r, where the second program has %r" % (what, got, expected))


def refusal(call, *words):
    try:
        return call(*words)
    except capellanote.Refused as error:
        return ("refused", error.number, error.line, error.column)


def rows(records):
    return [([h.text for h in r.header], r.chiral, [tuple(a) for a in r.atoms], [tuple(b) for b in r.bonds],
             [(i.name, [v.text for v in i.values]) for i in r.items]) for r in records]


def read(data, kind):
    return [(r.header, r.chiral, r.atoms, r.bonds, r.items) for r in capellanote.read(data, kind)]


rng = random.Random(23)
for turn in range(60):
    for kind in (0, 1):
        data = to_bytes(rng, file_rows(rng, good_drafts(rng, kind), kind))
        sheet = Sheet(data)
        records = [ctfile.molfile(sheet)] if kind == 0 else ctfile.sdfile(sheet)
        same("check", capellanote.check(data, kind), len(records))
        same("read", read(data, kind), rows(records))
        if kind == 1:
            same("write", b"".join(map(capellanote.write, capellanote.read(data))), writer.catalogue_text(data))
            for record in capellanote.read(data):
                for name in [b"LOT", b"none of them"] + [name for name, values in record.items]:
                    first = [values for known, values in record.items if known == name][:1]
                    same("fetch", capellanote.fetch(record.text, name), first[0] if first else None)
            same("count", capellanote.count(io.BytesIO(data)), len(records))
        data = damaged(rng, kind)
        answer = ctfile.check(kind, data)
        same("check of a damaged one", refusal(capellanote.check, data, kind), tuple(answer) if answer[0] == "refused" else answer[1])
        if answer[0] == "refused":
            same("read of a damaged one", refusal(capellanote.read, data, kind), tuple(answer))

small, long = sized_record(rng, 700), sized_record(rng, 5000)
same("count", capellanote.count(io.BytesIO(small * 40), 700), 40)
try:
    same("count", capellanote.count(io.BytesIO(small * 3 + long + small), 4999), "record 4 too long")
except capellanote.TooLong as error:
    same("count", str(error), "record 4 too long")
for wrong in ("00417", 417, None):
    try:
        capellanote.fetch(small, wrong)
        same("a name that is not bytes", wrong, "refused")
    except TypeError:
        tried += 1
record = next(capellanote.read(open(os.path.join(top, "examples", "sample.sdf"), "rb").read()))
same("a code", capellanote.fetch(record.text, b"LOT"), [b"00417"])
record.atoms[0] = (0, 0, 0, 999) + (0,) * 12
same("tables that cannot be written", refusal(capellanote.write, record), ("refused", 21, 0, 0))
record.atoms[0] = (2 ** 31,) + (0,) * 15
same("a number above 32 bits", refusal(capellanote.write, record), ("refused", 21, 0, 0))


def written(**parts):
    """What is read of a record that was written, or its refusal."""
    try:
        text = capellanote.write(capellanote.Record(**parts))
    except capellanote.Refused as error:
        return ("refused", error.number, error.line, error.column)
    except ValueError as error:
        return str(error)
    (record,) = capellanote.read(text)
    return record.header, record.items


# A line stays one line: no item comes of a value, and none is lost.
blank = "a value line of the item b'A' is blank, and a blank line ends an item"
for items, expected in (
        ([(b"A", [b"1"]), (b"B", [])], ([b"", b"", b""], [(b"A", [b"1"]), (b"B", [])])),
        ([(b"A", [b"1\n\n>  <B>\n2"])], ("refused", 4, 2, 2)),
        ([(b"A", [b"1"]), (b"B>\n\n>  <C", [b"2"])], ("refused", 4, 4, 7)),
        ([(b"A", [b"1\r"])], ("refused", 4, 2, 2)),
        ([(b"A", [b"", b">  <B>", b"2"])], blank),
        ([(b"A", [b"1", b"  "])], blank),
        ([(b"A", [b">  <B>"])], ("refused", 17, 2, 1)),
        ([(b"A", [b"$$$$"])], ("refused", 17, 2, 1)),
        ([(b"A> <B", [b"1"])], ("refused", 16, 1, 1))):
    same("write of items", written(items=items), expected)
same("write of a header", written(header=[b"a\nb", b"c", b""]), ("refused", 4, 1, 2))
same("write of a header", written(header=[b"a\r", b"", b""]), ("refused", 4, 1, 2))
for kind in (2, 256, 257, -1):
    same("a kind that is none", refusal(capellanote.check, b"", kind), ("refused", 1, 0, 0))
run = subprocess.run([sys.executable, "-c", "import capellanote"], cwd=os.path.join(top, "python"), stderr=subprocess.PIPE,
                     env=dict(os.environ, CAPELLANOTE_LIBRARY="/nowhere/libcapellanote.so"))
same("a library that is not there", b"library/build makes the shared library" in run.stderr, True)
numbers = [n for n in range(1, 40) if "no sentence" not in capellanote.sentence(n)]
same("a sentence for each number", len({capellanote.sentence(n) for n in numbers}), len(numbers))
print("tests/module.py: %d answers as the second program has them" % tried)
