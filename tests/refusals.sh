# What check says of refused records and of what is worth a warning: word for word, every refused record of a file, and in JSON.

for file in tests/refusals/*.sdf tests/refusals/*.mol; do
    (cd tests/refusals && ../../capellanote check "${file##*/}") >"$room/out" 2>&1
    if cmp -s "$room/out" "${file%.*}.txt"; then ok; else bad "check: ${file##*/}" "it wrote $(diff "$room/out" "${file%.*}.txt" | head -n 4)"; fi
done
for no in 03 04 05 06 07 08 09 10 11 12 13 14 15 16 17 18 19; do
    grep -q ": refused ${no#0}: " "tests/refusals/$no.txt" && ok || bad "check: number $no" "no file has it"
done

for kind in swallowed twice names empty; do
    got ./capellanote check --strict "tests/refusals/warning-$kind.sdf"
    [ "$status" = 1 ] && ok || bad "check --strict: $kind" "status $status"
    got ./capellanote check "tests/refusals/warning-$kind.sdf"
    [ "$status" = 0 ] && ok || bad "check: $kind" "status $status"
done

got ./capellanote explain 17
is "explain" 0 "refused 17: a data header or a line that begins \$\$\$\$ stands where a value or a blank line must
  why: the blank line after an item's values is missing; or a value begins with \$\$\$\$
  ask for: a blank line after the values of each item" ""
got ./capellanote explain 99
is "explain: no such number" 2 "" "99 is the number of no refusal"
for no in $(seq 1 22); do ./capellanote explain "$no"; done >"$room/out" && [ "$(grep -c '^refused ' "$room/out")" = 22 ] && ok || bad "explain" "a number is missing"
got ./capellanote names examples/sample.sdf
is "names" 0 "5	LOT
1	PURITY
1	REMARK
1	SUPPLIER
1	EMPTY
1	QUOTED" ""
got ./capellanote names tests/refusals/08.sdf
is "names: a refused record" 1 "1	LOT" "08.sdf: 1 record refused, and passed over"

# Every refused record, and none else: the second program judges the records, resumed behind each refused one as DECISIONS says.
cat >"$room/resume.py" <<'END'
import json, random, subprocess, sys
sys.path.insert(0, "oracle")
from ctfile import check
from damage import damaged
from generate import sized_record

ROOM = 1048576

def resumed(data):
    """(record, number or None, line, column) for each record that is not accepted; how many are."""
    ends = [i + 1 for i, byte in enumerate(data) if byte == 10]
    bad, good, at, line = [], 0, 0, 0
    while at < len(data):
        answer, lines = front(data, at, ends, line)
        if answer is None:
            good += 1
        else:
            number, first, column = answer
            bad.append((len(bad) + good + 1, number, line + (first if number else 1), column))
            lines = first
            while line + lines <= len(ends) and not begins(data, ends, line + lines):
                lines += 1
        line += lines
        at = ends[line - 1] if line <= len(ends) else len(data)
    return bad, good

def begins(data, ends, line):
    start = ends[line - 2] if line > 1 else 0
    return data[start:start + 4] == b"$$$$"

def front(data, at, ends, line):
    """Of the record that begins there after so many lines: None and its lines, or its refusal."""
    for k in range(line + 1, len(ends) + 1):
        if ends[k - 1] - at > ROOM:
            break
        if begins(data, ends, k):
            answer = check(1, data[at:ends[k - 1]])
            if answer[0] == "accepted":
                return None, k - line
            if answer[1] != 19:
                return answer[1:], 0
    answer = check(1, data[at:at + ROOM])
    if answer[1] == 19 and len(data) - at > ROOM:
        return (None, data[at:at + ROOM].count(b"\n") + 1, None), 0
    return answer[1:], 0

def told(data, name):
    with open(name, "wb") as file:
        file.write(data)
    out = subprocess.run(["./capellanote", "check", "--json", name], capture_output=True).stdout
    rows = [json.loads(row) for row in out.splitlines()]
    bad = [(r["record"], r["number"], r["line"], r["column"]) for r in rows if "title" in r]
    end = rows[-1]
    return bad, end["accepted"], end["refused"]

def compare(data, name, what):
    bad, good = resumed(data)
    theirs = told(data, name)
    if theirs != (bad, good, len(bad)):
        print(what, "differs:", theirs, (bad, good))
        sys.exit(1)
    return len(bad), good

rng = random.Random(31)
name = sys.argv[1] + "/many.sdf"
small = [sized_record(rng, 900 + k % 90) for k in range(1000)]
spoilt = rng.sample(range(1000), 30)
for k in spoilt:
    lines = small[k].split(b"\n")
    j = rng.randrange(3, len(lines) - 3)
    lines[j] = rng.choice((b"x" * 201, lines[j] + b"\xe9"))
    small[k] = b"\n".join(lines)
found = compare(b"".join(small), name, "1000 records")
if found != (30, 970):
    print("1000 records with 30 bad ones:", found)
    sys.exit(1)
for turn in range(25):
    data = b"".join(damaged(rng, 1) if rng.random() < .6 else sized_record(rng, 900) for _ in range(rng.randrange(1, 7)))
    compare(data, name, "damaged files %d" % turn)
# A record longer than the buffer, and one that its end cuts.
bad = small[spoilt[0]]
number, line, column = check(1, bad)[1:]
filler = b"A" * 200 + b"\n"
good = small[next(k for k in range(1000) if k not in spoilt)]
long = good[:-6] + filler * 6000 + b"\n$$$$\n"
lines, more = bad.count(b"\n"), long.count(b"\n")
theirs = told(bad + long + bad + good, name)
mine = [(1, number, line, column), (2, None, lines + 1, None), (3, number, lines + more + line, column)]
if theirs[0] != mine or theirs[1:] != (1, 3):
    print("a record longer than the buffer:", theirs, mine)
    sys.exit(1)
theirs = told(bad * 3000, name)
if theirs[0] != [(k + 1, number, k * lines + line, column) for k in range(3000)]:
    print("records that the buffer's end cuts:", theirs[0][:3])
    sys.exit(1)
END
if python3 "$room/resume.py" "$room" >"$room/out" 2>&1; then ok; else bad "check --all" "$(head -c 600 "$room/out")"; fi
got ./capellanote check --all "$room/many.sdf"
[ "$status" = 1 ] && ok || bad "check --all" "status $status"
