# Two deliveries compared: differences that are none, each part that can differ, files that are refused or cannot be read, a pair of records with very
# many differences, and two deliveries of 10 MB that differ in one zero. The second program says what is right.

mkdir "$room/compare"
python3 - "$room/compare/" <<'END'
import sys

room = sys.argv[1]

def put(name, text):
    with open(room + name, "wb") as file:
        file.write(text)

def atom(x, symbol, map=0):
    return b"%10s    0.0000    0.0000 %-3s 0  0  0  0  0  0  0  0  0%3d  0  0\n" % (x, symbol, map)

def record(title, atoms, bonds, items, third=b"", chiral=0):
    return (title + b"\n\n" + third + b"\n" + b"%3d%3d  0  0%3d  0  0  0  0  0999 V2000\n" % (len(atoms), len(bonds), chiral)
            + b"".join(atoms) + b"".join(b"%3d%3d%3d  0  0  0  0\n" % bond for bond in bonds) + b"M  END\n"
            + b"".join(b">  <" + name + b">\n" + b"".join(value + b"\n" for value in values) + b"\n" for name, values in items) + b"$$$$\n")

two = [atom(b"0.0000", b"C"), atom(b"1.2500", b"O")]
three = two + [atom(b"-2.0000", b"Cl")]
lot = lambda *values: (b"LOT", list(values))
plain = record(b"AB-1", two, [(1, 2, 1)], [lot(b"00417")]) + record(b"AB-2", two, [(1, 2, 1)], [lot(b"00418"), (b"NOTE", [b"dry"])])
put("plain", plain)
put("crlf", plain.replace(b"\n", b"\r\n"))
put("unread", plain.replace(b"  0  0  0  0999 V2000", b"  1  2  3  4  5 V2000").replace(b">  <LOT>", b"> <LOT>  "))
put("zero", plain.replace(b"00418", b"0418"))
put("more", plain + record(b"AB-3", [], [], []))
put("parts", record(b"AB-9", three, [(1, 2, 2), (2, 3, 1)], [(b"BATCH", [b"00417", b"x\"y\\z"])], b"drum 3", 1)
    + record(b"", [atom(b"0.0000", b"N", 1), atom(b"-1.2600", b"*")], [(2, 1, 1)], [lot(b"00418", b"second"), (b"NOTE", []), (b"NEW", [b"1", b"2"])]))
put("empty", b"")
put("refused", plain.replace(b"00418\n\n", b"00418\n"))
put("many", record(b"M", two, [(1, 2, 1)], [lot(*[b"%d" % k for k in range(30000)]), (b"END", [b"e"])]))
put("many-others", record(b"M", two, [(1, 2, 1)], [lot(*[b"%d" % (k + 1) for k in range(20000)]), (b"END", [b"f"])]))
END

# FIRST SECOND: status and JSON as the second program has them
compare_as() {
    python3 oracle/deliveries.py "$room/compare/$1" "$room/compare/$2" >"$room/right"
    right=$?
    got ./capellanote compare --json "$room/compare/$1" "$room/compare/$2"
    if [ "$status" = "$right" ] && python3 - "$room/out" "$room/right" <<'END'; then ok; else bad "compare: $1 and $2" "status $status, not $right, or another list: $(head -c 300 "$room/out")"; fi
import json, sys
ours, right = ([json.loads(line) for line in open(name)] for name in sys.argv[1:])
sys.exit(ours != right)
END
}

for pair in "plain plain" "plain crlf" "unread plain" "plain zero" "zero plain" "plain more" "more plain" "plain parts" "parts plain" "empty empty" "empty plain" \
    "plain empty" "many many-others" "many-others many"; do
    # shellcheck disable=SC2086
    compare_as $pair
done

# FIRST SECOND STATUS OUTPUT ERROR
compare_is() {
    got ./capellanote compare "$room/compare/$1" "$room/compare/$2"
    is "compare: $1 and $2" "$3" "$4" "$5"
}

compare_is plain crlf 0 "no difference in 2 records" ""
compare_is plain zero 1 "record 2 AB-2, item 1 LOT, line 1: 00418 -> 0418
1 difference in 1 of 2 records" ""
compare_is more plain 1 "record 3 AB-3: only in the old file
1 difference in 1 of 3 records" ""
compare_is plain parts 1 "record 1 AB-1, header line 1: AB-1 -> AB-9
record 1 AB-1, header line 3:  -> drum 3
record 1 AB-1, atoms: 2 -> 3
record 1 AB-1, bonds: 1 -> 2
record 1 AB-1, chiral: 0 -> 1
record 1 AB-1, bond 1, type: 1 -> 2
record 1 AB-1, item 1, name: LOT -> BATCH
record 1 AB-1, item 1 BATCH, line 2, only in the new file: x\"y\\z
record 2 AB-2, header line 1: AB-2 -> 
record 2 AB-2, atom 1, symbol: C -> N
record 2 AB-2, atom 1, map: 0 -> 1
record 2 AB-2, atom 2, x: 1.2500 -> -1.2600
record 2 AB-2, atom 2, symbol: O -> *
record 2 AB-2, bond 1, first: 1 -> 2
record 2 AB-2, bond 1, second: 2 -> 1
record 2 AB-2, item 1 LOT, line 2, only in the new file: second
record 2 AB-2, item 2 NOTE, line 1, only in the old file: dry
record 2 AB-2, item 3 NEW: only in the new file
18 differences in 2 of 2 records" ""
compare_is refused plain 2 "" "refused 17"
compare_is plain refused 2 "" "refused 17"
compare_is plain none 2 "" "none"
got ./capellanote compare "$room/compare/plain"
if [ "$status" = 2 ]; then ok; else bad "compare: one file" "status $status"; fi

# Two deliveries of 10 MB that differ in one zero.
python3 bench/catalogue.py 11 10000000 "$room/compare/old"
python3 - "$room/compare/" <<'END'
import re, sys
text = open(sys.argv[1] + "old", "rb").read()
spot = [m for m in re.finditer(rb"\n(0\d+)\n", text)][-1]
open(sys.argv[1] + "new", "wb").write(text[:spot.start(1)] + text[spot.start(1) + 1:])
open(sys.argv[1] + "said", "wb").write(spot.group(1) + b" -> " + spot.group(1)[1:])
END
got ./capellanote compare "$room/compare/old" "$room/compare/new"
if [ "$status" = 1 ] && [ "$(wc -l <"$room/out")" = 2 ] && head -n 1 "$room/out" | grep -qF -- "line 1: $(cat "$room/compare/said")" && tail -n 1 "$room/out" | grep -q "^1 difference in 1 of "; then
    ok
else
    bad "compare: one zero in 10 MB" "status $status: $(head -c 300 "$room/out")"
fi
