# Bottles per supplier: reports over one and many files, each refusal, refused files between good ones, files over several buffers.

mkdir "$room/month"
python3 - "$room/month/" <<'END'
import random, sys
sys.path.insert(0, "oracle")
import tally

folder = sys.argv[1]
COUNTS = b"  0  0  0  0  0  0  0  0  0  0999 V2000\n"

def record(*items):
    text = b"name\n\n\n" + COUNTS + b"M  END\n"
    for name, *values in items:
        text += b">  <" + name + b">\n" + b"".join(v + b"\n" for v in values) + b"\n"
    return text + b"$$$$\n"

def sent(name):
    return record((b"LOT", b"00417"), (b"SUPPLIER", name, b"second line"), (b"SUPPLIER", b"not this one"))

rng = random.Random(26)
names = [b"AB", b"ABC", b"B", b"ab", b"00417", b"417", b"x" * 24, b'quote " and \\ slash', b"<tag> & more"]
files = {
    "two": [sent(b"AB"), sent(b"AB")],
    "second": [sent(b"B"), record((b"LOT", b"1")), record((b"SUPPLIER",)), sent(b"AB")],
    "long": [sent(b"C"), sent(b"y" * 25), sent(b"C")],
    "many": [sent(b"S%03d" % i) for i in range(65)],
    "full": [sent(b"S%03d" % i) for i in range(64)] + [record(), sent(b"S000")],
    "mixed": [sent(rng.choice(names)) if rng.random() < 0.9 else record() for _ in range(200)],
    "buffers": [sent(rng.choice(names)) + b"" for _ in range(20000)],
    "none": [],
}
for name, records in files.items():
    open(folder + name + ".sdf", "wb").write(b"".join(records))
open(folder + "bad.sdf", "wb").write(sent(b"AB") * 3 + sent(b"AB")[:-5] + b"\n$$$$\n")
open(folder + "cut.sdf", "wb").write(sent(b"AB") * 3 + b"name\n")

def expected(case, *parts):
    data = [open(folder + p + ".sdf", "rb").read() for p in parts]
    book, refused = tally.with_files(tally.Tally(), data)
    open(folder + case + ".report", "wb").write(tally.report(book))

expected("one", "two")
expected("three", "two", "bad", "second")
expected("cutting", "two", "cut", "second")
expected("longer", "two", "long", "mixed")
expected("filled", "full", "many", "two", "second")
expected("large", "mixed", "buffers", "buffers", "none")
expected("nothing", "none")
END

# A report that is right byte for byte, and a standard error that holds this text.
reports() { # CASE STATUS ERROR FILES...
    case=$1 wanted=$2 error=$3
    shift 3
    got ./capellanote tally "$@"
    cmp -s "$room/out" "$room/month/$case.report" || bad "tally $case" "the report is another: $(head -c 300 "$room/out")"
    is "tally $case" "$wanted" "$(cat "$room/month/$case.report")" "$error"
}

(
    cd "$room/month" || exit 1
    printf '     2 AB\n     0 missing\n     2 total\n' | cmp -s - one.report
) || bad "tally" "two records from AB are reported otherwise by the second program"

M=$room/month
reports one 0 "" "$M/two.sdf"
reports nothing 0 "" "$M/none.sdf"
reports three 1 "$M/bad.sdf:" "$M/two.sdf" "$M/bad.sdf" "$M/second.sdf"
reports cutting 1 "refused 19" "$M/two.sdf" "$M/cut.sdf" "$M/second.sdf"
reports longer 1 "$M/long.sdf: record 2: refused 23: " "$M/two.sdf" "$M/long.sdf" "$M/mixed.sdf"
reports filled 1 "$M/many.sdf: record 65: refused 24: " "$M/full.sdf" "$M/many.sdf" "$M/two.sdf" "$M/second.sdf"
reports large 0 "" "$M/mixed.sdf" "$M/buffers.sdf" "$M/buffers.sdf" "$M/none.sdf"

got ./capellanote tally --json "$M/two.sdf" "$M/bad.sdf" "$M/second.sdf"
is "tally --json" 1 '{"supplier":"AB","count":3}
{"supplier":"B","count":1}
{"missing":2,"total":6,"files":3,"refused":1}' "refused"
got ./capellanote tally --json "$M/mixed.sdf"
if python3 -c 'import json,sys; [json.loads(l) for l in open(sys.argv[1])]' "$room/out"; then ok; else bad "tally --json" "a line is no JSON"; fi

got ./capellanote tally "$M/two.sdf" "$M/not there.sdf"
is "tally of a file that is not there" 2 "$(cat "$M/one.report")" "not there.sdf"
got ./capellanote tally
is "tally of nothing" 2 "" "tally takes the names of files"
