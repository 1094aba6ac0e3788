# A record of as many atoms and bonds as there may be: longer than the counter's buffer, read and written back by the others. Sourced by tests/run.

limit=$(sed -n 's/^#define CAPELLANOTE_LIMIT //p' include/capellanote.h)
python3 bench/catalogue.py 5 1 "$room/ring.sdf" --ring "$limit" || bad "the largest record" "it was not made"
[ "$(wc -c <"$room/ring.sdf")" -gt 65536 ] && ok || bad "the largest record" "it fits the counter's buffer"
examples/compile --run target/bin/counter <"$room/ring.sdf" >"$room/out" 2>"$room/err"
status=$?
is "counter: the largest record" 0 "record 1 too long" ""
got ./capellanote count "$room/ring.sdf"
is "count: the largest record" 0 "accepted 1" ""
got ./capellanote check "$room/ring.sdf"
is "check: the largest record" 0 "$room/ring.sdf: accepted, 1 record" ""
got ./capellanote canon "$room/ring.sdf"
cmp -s "$room/out" "$room/ring.sdf" && ok || bad "canon: the largest record" "status $status: $(head -c 300 "$room/err")"
got ./capellanote fetch LOT "$room/ring.sdf"
[ "$status" = 0 ] && grep -q "$(grep -A1 '<LOT>' "$room/ring.sdf" | tail -n 1)" "$room/out" && ok || bad "fetch: the largest record" "status $status: $(head -c 300 "$room/out")"
got ./capellanote read "$room/ring.sdf"
python3 - "$room/out" "$room/ring.sdf" "$limit" <<'END' && ok || bad "read: the largest record" "status $status, or other rows than the lines have"
import json, sys
limit = int(sys.argv[3])
(record,) = map(json.loads, open(sys.argv[1]))
lines = open(sys.argv[2]).read().split("\n")[4:]
atoms, bonds = lines[:limit], lines[limit:2 * limit]
assert len(record["atoms"]) == len(record["bonds"]) == limit
for row, line in zip(record["atoms"], atoms):
    assert row == [int(line[k:k + 10].replace(".", "")) for k in (0, 10, 20)] + ["C"] + [0] * 12
for row, line in zip(record["bonds"], bonds):
    assert row == [int(line[k:k + 3]) for k in (0, 3, 6)] + [0] * 3
END

# The pair of the first bond line again, turned round, on the last.
python3 - "$room" "$limit" <<'END'
import sys
room, limit = sys.argv[1], int(sys.argv[2])
lines = open(room + "/ring.sdf").read().split("\n")
last = 4 + 2 * limit - 1
first = lines[4 + limit]
again = lines[:last] + [first[3:6] + first[:3] + first[6:]] + lines[last + 1:]
open(room + "/again.sdf", "w").write("\n".join(again))
open(room + "/line", "w").write(str(last + 1))
END
got ./capellanote check "$room/again.sdf"
case $status$(cat "$room/out") in "1$room/again.sdf:$(cat "$room/line"):1: refused 11: "*) ok ;; *) bad "check: the last bond as the first" "$(cat "$room/out")" ;; esac
