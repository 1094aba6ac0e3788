# The command: statuses, messages, usage.

cp examples/sample.sdf "$room/two words.sdf"
: >"$room/empty.sdf"
sed -n 1,9p examples/sample.sdf >"$room/one.mol"

got ./capellanote check examples/sample.sdf
is "check: good" 0 "examples/sample.sdf: accepted, 5 records" ""
got ./capellanote check examples/damaged.sdf
damaged="examples/damaged.sdf:29:1: refused 17: a data header before the item PURITY has ended: the blank line after its values is missing
  record 2, AB-00418, from line 14; expected here: a value line of the item PURITY, or the blank line that ends it
  29 | >  <REMARK>
     | ^
  ask for: a blank line after the values of each item"
is "check: damaged" 1 "$damaged" ""
got ./capellanote check "$room/two words.sdf"
is "check: name with a space" 0 "$room/two words.sdf: accepted, 5 records" ""
got ./capellanote check "$room/empty.sdf"
is "check: empty SDfile" 0 "$room/empty.sdf: warning: no records
$room/empty.sdf: accepted, 0 records" ""
got ./capellanote check --molfile "$room/empty.sdf"
is "check: empty molfile" 1 "$room/empty.sdf:1:1: refused 19: the file ends where the first header line must stand
  record 1, from line 1; expected here: the first header line
  the file is empty" ""
got ./capellanote check --molfile "$room/one.mol"
is "check: molfile" 0 "$room/one.mol: accepted, 1 record" ""
got ./capellanote check --molfile examples/sample.sdf
is "check: SDfile as molfile" 1 "examples/sample.sdf:10:1: refused 18: a line after 'M  END', with which a molfile ends
  record 1, AB-00417, from line 1; expected here: the end of the molfile
  10 | >  <LOT>
     | ^
  an SDfile is checked without --molfile" ""
got ./capellanote check "$room/none.sdf"
is "check: missing file" 2 "" "$room/none.sdf: No such file or directory"
got ./capellanote check "$room"
is "check: directory" 2 "" "$room: Is a directory"
got ./capellanote check examples/sample.sdf "$room/none.sdf" examples/damaged.sdf
is "check: several files" 2 "examples/sample.sdf: accepted, 5 records
$damaged
3 files: 1 accepted with 5 records, 1 refused, 1 not read" "none.sdf: No such file"
got ./capellanote check examples/sample.sdf examples/damaged.sdf
[ "$status" = 1 ] || bad "check: a good and a damaged file" "status $status"
(cd "$room" && cp empty.sdf ./--progress && "$OLDPWD/capellanote" check -- --progress >"$room/out" 2>"$room/err")
status=$?
is "check: a file named as an option" 0 "--progress: warning: no records
--progress: accepted, 0 records" ""
./capellanote check - <examples/sample.sdf >"$room/out" 2>"$room/err"
status=$?
is "check: standard input" 0 "-: accepted, 5 records" ""

# A file for each number that a file can be refused with, 3 to 19: the place that the second program says, and a sentence.
python3 - "$room" <<'END'
import random, sys
sys.path.insert(0, "oracle")
from ctfile import check
from damage import damaged
rng, found = random.Random(5), set()
while len(found) < 17:
    for kind, ending in ((0, "mol"), (1, "sdf")):
        data = damaged(rng, kind)
        answer = check(kind, data)
        if answer[0] == "refused" and answer[1] not in found:
            found.add(answer[1])
            name = "%s/no%02d." % (sys.argv[1], answer[1])
            with open(name + ending, "wb") as file:
                file.write(data)
            with open(name + "place", "w") as file:
                file.write("%d:%d: refused %d: " % (answer[2], answer[3], answer[1]))
END
for file in "$room"/no??.mol "$room"/no??.sdf; do
    case $file in *.mol) molfile=--molfile ;; *) molfile= ;; esac
    # shellcheck disable=SC2086
    got ./capellanote check $molfile "$file"
    case $status$(cat "$room/out") in
    *"no sentence"*) bad "check: $(basename "$file")" "$(cat "$room/out")" ;;
    1*"$file:$(cat "${file%.*}.place")"?*) ok ;;
    *) bad "check: $(basename "$file")" "status $status: $(cat "$room/out")" ;;
    esac
done

# Every number from 1 to 39 has a sentence of its own: the command runs with a stand-in for the program, which says this verdict.
stand=$room/kit/toolchain/lib
mkdir -p "$stand"
printf '#!/bin/sh\necho "$VERDICT" >&3\n' >"$stand/ld-linux-x86-64.so.2"
chmod +x "$stand/ld-linux-x86-64.so.2"
says() { # VERDICT
    VERDICT=$1 RATTLE_HOME=$room/kit ./capellanote read examples/sample.sdf
}
for no in $(seq 1 39); do says "refused $no 7 9"; done 2>&1 | grep -v hint: >"$room/sentences"
[ "$(grep -c '^examples/sample.sdf:7:9: refused [0-9]*: ' "$room/sentences")" = 39 ] && ok || bad "sentences" "$(cat "$room/sentences")"
[ "$(sed 's/.*refused [0-9]*: //' "$room/sentences" | sort -u | wc -l)" = 39 ] && ok || bad "sentences" "two are the same"
grep -q "no sentence" "$room/sentences" && bad "sentences" "one is missing" || ok
got says "refused 99 7 9"
is "sentence 99" 1 "" "examples/sample.sdf:7:9: refused 99: no sentence for this number"
got says "refused 2 0 0"
is "a refusal without a place" 1 "" "examples/sample.sdf: refused 2: the tables lent have room for fewer atoms or bonds than a record may have"
got says ""
is "no verdict" 2 "" "the program ended without a verdict"
VERDICT="accepted 5" RATTLE_HOME=$room/kit ./capellanote check examples/sample.sdf >"$room/out" 2>"$room/err"
status=$?
is "check: no facts" 2 "" "the program ended without a verdict"

# Records around the buffer of 1,048,576 bytes.
python3 - "$room" <<'END'
import random, sys
sys.path.insert(0, "oracle")
from generate import sized_record
rng = random.Random(3)
small = sized_record(rng, 700)
def put(name, data):
    with open(sys.argv[1] + "/" + name, "wb") as file:
        file.write(data)
size = 1048576
exact, longer = sized_record(rng, size), sized_record(rng, size + 1)
put("exact.sdf", small + exact + exact + small)
put("longer.sdf", small + exact + longer)
put("end.sdf", longer[:-1])
put("long.mol", b"x" * (size + 1))
put("refused.mol", b"a\nb\nc\nd\n" + b"x" * (size + 1))
END
got ./capellanote check "$room/exact.sdf"
is "check: records of the buffer's size" 0 "$room/exact.sdf: accepted, 4 records" ""
got ./capellanote check "$room/longer.sdf"
case $status$(cat "$room/out") in 1*": record 3 too long: it does not end within 1,048,576 bytes"*) ok ;; *) bad "check: a record one byte longer" "$(cat "$room/out")" ;; esac
got ./capellanote check "$room/end.sdf"
case $(cat "$room/out") in *"refused 19: "*) ok ;; *) bad "check: a full buffer and the end" "$(cat "$room/out")" ;; esac
got ./capellanote check --molfile "$room/long.mol"
case $status$(cat "$room/out") in "1$room/long.mol:1: record 1 too long: it does not end within 1,048,576 bytes"*) ok ;; *) bad "check: a molfile longer than the buffer" "$(cat "$room/out")" ;; esac
got ./capellanote check --molfile "$room/refused.mol"
case $(cat "$room/out") in *":4:1: refused 7: "*) ok ;; *) bad "check: a refused line of a long molfile" "$(cat "$room/out")" ;; esac

got ./capellanote
is "usage: nothing asked" 2 "" "usage: capellanote"
got ./capellanote check
is "usage: no file" 2 "" "check takes the names of files"
got ./capellanote check --fast examples/sample.sdf
is "usage: unknown option" 2 "" "unknown option --fast"
got ./capellanote count a b
is "usage: two files to count" 2 "" "count takes one file"
got ./capellanote tidy
is "usage: unknown command" 2 "" "unknown command tidy"
got ./capellanote help
[ "$status" = 0 ] && grep -q '^  capellanote check' "$room/out" && ok || bad "help" "status $status"
(cd "$room" && ln -s "$OLDPWD/capellanote" linked && ./linked check "two words.sdf" >"$room/out" 2>"$room/err")
status=$?
is "check: the command by a link, from another folder" 0 "two words.sdf: accepted, 5 records" ""
