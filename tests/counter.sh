# The counter: the second program's cases, slow pipes, input that cannot be read. The verb count: the same lines, with check's buffer.

./capellanote build >/dev/null 2>"$room/err" || bad counter "not built: $(tail -n 2 "$room/err")"
counter() { examples/compile --run target/bin/counter "$@"; }

python3 oracle/counter_cases.py 11 160 "$room/counter" || bad counter "the cases were not made"
for input in "$room"/counter/*.sdf; do
    expected=$(cat "${input%.sdf}.line")
    counter <"$input" >"$room/out" 2>"$room/err"
    status=$?
    is "counter: case $(basename "$input")" 0 "$expected" ""
    case $expected in
    *"too long") ;;
    *)
        case $expected in accepted*) want=0 ;; *) want=1 ;; esac
        got ./capellanote count "$input"
        is "count: case $(basename "$input")" "$want" "$expected" ""
        ;;
    esac
    case $expected in "refused "*)
        # shellcheck disable=SC2086
        set -- $expected
        got ./capellanote check "$input"
        case $(grep -v "^$input:[0-9]*: warning: " "$room/out") in
        "$input:$4:$6: refused $2: "*) ok ;;
        *) bad "check: case $(basename "$input")" "it wrote '$(cat "$room/out")' where the counter wrote '$expected'" ;;
        esac
        ;;
    esac
done

# A few bytes a read, and a record that ends exactly at the buffer's end.
slowly() { # FILE BYTES
    python3 -c 'import os, sys, time
data = open(sys.argv[1], "rb").read()
step = int(sys.argv[2])
for at in range(0, len(data), step):
    os.write(1, data[at:at + step])
    time.sleep(0.0005)' "$1" "$2"
}
for cut in "examples/sample.sdf 7" "examples/damaged.sdf 13" "$room/counter/003.sdf 1021" "$room/counter/010.sdf 997"; do
    # shellcheck disable=SC2086
    set -- $cut
    expected=$(counter <"$1")
    slowly "$1" "$2" | counter >"$room/out" 2>"$room/err"
    status=$?
    is "counter: slow pipe of $(basename "$1")" 0 "$expected" ""
done

got ./capellanote count "$room/none.sdf"
is "count: missing file" 2 "" "none.sdf: No such file or directory"
got ./capellanote count "$room"
is "count: directory" 2 "" "Is a directory"
counter <"$room" >"$room/out" 2>"$room/err"
status=$?
is "counter: standard input is a directory" 0 "" "standard input: Is a directory"
counter <examples/sample.sdf >/dev/full 2>"$room/err"
status=$?
: >"$room/out"
is "counter: standard output is full" 0 "" "standard output: No space left on device"
./capellanote count <"$room" >"$room/out" 2>"$room/err"
status=$?
is "count: standard input is a directory" 2 "" "Is a directory"
./capellanote count <&- >"$room/out" 2>"$room/err"
status=$?
is "count: standard input is closed" 2 "" "Bad file descriptor"
./capellanote count examples/sample.sdf >/dev/full 2>"$room/err"
status=$?
: >"$room/out"
is "count: standard output is full" 2 "" "standard output: cannot be written"

# 34 MiB in constant memory, with a line of progress for every 16 MiB.
python3 - "$room" <<'END'
import sys
text = open("examples/sample.sdf", "rb").read()
with open(sys.argv[1] + "/large.sdf", "wb") as file:
    for _ in range(34 * 1048576 // len(text) + 1):
        file.write(text)
END
records=$(($(grep -c '^\$\$\$\$$' "$room/large.sdf")))
counter --progress <"$room/large.sdf" >"$room/out" 2>"$room/err"
status=$?
is "counter: 34 MiB" 0 "accepted $records" "32 MiB read"
[ "$(wc -l <"$room/err")" = 2 ] || bad "counter: progress" "not two lines: $(cat "$room/err")"
got ./capellanote count --progress "$room/large.sdf"
is "count: 34 MiB" 0 "accepted $records" "32 MiB read"
