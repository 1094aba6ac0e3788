# Statuses that tell the truth: full disks, closed descriptors, pipes that are closed early, a command that is killed. Sourced by tests/run.

mkdir "$room/tmp" "$room/status"
sample=$PWD/examples/sample.sdf
sed -n 1,9p "$sample" >"$room/status/one.mol"
printf 'RABCD00000417\001\000D\000\000\000\000' >"$room/status/log"
sed 's/00421/0421/' "$sample" >"$room/status/other.sdf"
for i in $(seq 1 1500); do cat "$sample"; done >"$room/status/many.sdf"

in_room() { TMPDIR=$room/tmp "$@"; }

# Every verb that writes, on a full disk.
for task in "check $sample" "check $sample $room/status/one.mol" "count $sample" "read $sample" "fetch LOT $sample" "fetch --tsv LOT $sample" \
    "canon $sample" "pieces $sample" "formula $sample" "same $sample $room/status/other.sdf" "replay $room/status/log" "--version" "help" "check --help"; do
    # shellcheck disable=SC2086
    in_room ./capellanote $task >/dev/full 2>"$room/err"
    status=$?
    [ "$status" = 2 ] && grep -q 'standard output: ' "$room/err" && ok || bad "status: ${task%% *} on a full disk" "status $status: $(head -c 300 "$room/err")"
done

# Closed descriptors: without standard error the output is whole and the status 0; without standard output it is 2.
for task in "check $sample" "count $sample" "read $sample" "fetch LOT $sample" "canon $sample" "pieces $sample"; do
    # shellcheck disable=SC2086
    in_room ./capellanote $task >"$room/expected" 2>"$room/err"
    # shellcheck disable=SC2086
    in_room ./capellanote $task >"$room/out" 2>&-
    status=$?
    : >"$room/err"
    is "status: ${task%% *} without standard error" 0 "$(cat "$room/expected")" ""
    # shellcheck disable=SC2086
    in_room ./capellanote $task >&- 2>"$room/err"
    status=$?
    [ "$status" = 2 ] && grep -q 'standard output: ' "$room/err" && ok || bad "status: ${task%% *} without standard output" "status $status: $(head -c 300 "$room/err")"
    # shellcheck disable=SC2086
    in_room ./capellanote $task <&- >"$room/out" 2>"$room/err"
    status=$?
    is "status: ${task%% *} without standard input" 0 "$(cat "$room/expected")" ""
done
in_room ./capellanote check "$room/status/none.sdf" >"$room/out" 2>&-
status=$?
: >"$room/err"
is "status: a missing file without standard error" 2 "" ""

# Whoever reads stops reading: 141, as other commands end; 2 and a sentence where signals of pipes are not heard.
names=$(for i in $(seq 1 2000); do printf '%s ' "$sample"; done)
for task in "read $room/status/many.sdf" "fetch LOT $room/status/many.sdf" "canon $room/status/many.sdf" "check $names"; do
    # shellcheck disable=SC2086
    in_room ./capellanote $task 2>"$room/err" | head -n 1 >"$room/out"
    status=${PIPESTATUS[0]}
    [ "$status" = 141 ] && [ ! -s "$room/err" ] && [ "$(wc -l <"$room/out")" = 1 ] && ok || bad "status: ${task%% *} into head" "status $status: $(head -c 300 "$room/err")"
done
(
    trap '' PIPE
    in_room ./capellanote read "$room/status/many.sdf" 2>"$room/err"
    echo $? >"$room/out"
) | head -n 1 >"$room/line"
[ "$(cat "$room/out")" = 2 ] && grep -q 'standard output: ' "$room/err" && ok || bad "status: read into head, signals ignored" "status $(cat "$room/out"): $(head -c 300 "$room/err")"

# A command that is stopped takes its program with it: it ends by the signal, and what it wrote is not whole.
in_room python3 - "$room/status/many.sdf" <<'END' && ok || bad "status: a killed command" "see above"
import signal, subprocess, sys
bad = 0
signals = [signal.SIGTERM, signal.SIGINT, signal.SIGHUP]
for number in signals:
    signal.signal(number, signal.SIG_DFL) # also where the tests run in the background, which ignores some
if subprocess.run("setpriv --pdeathsig TERM true", shell=True, stderr=subprocess.DEVNULL).returncode == 0:
    signals.append(signal.SIGKILL)
for verb in (["read"], ["fetch", "LOT"], ["canon"]):
    whole = len(subprocess.run(["./capellanote"] + verb + [sys.argv[1]], stdout=subprocess.PIPE).stdout)
    for number in signals:
        run = subprocess.Popen(["./capellanote"] + verb + [sys.argv[1]], stdout=subprocess.PIPE, stderr=subprocess.PIPE)
        first = run.stdout.readline()
        run.send_signal(number)
        status = run.wait(timeout=60)
        wrote = len(first + run.stdout.read())
        if status != -number or not 0 < wrote < whole:
            print(verb, number, "status", status, "bytes", wrote, "of", whole, run.stderr.read()[:300])
            bad = 1
sys.exit(bad)
END

rm -rf "$room"/tmp/capellanote.* # what a command killed outright leaves

# A program that is ended: a sentence, and the status 2.
in_room python3 - "$room/status/many.sdf" <<'END' && ok || bad "status: a killed program" "see above"
import os, signal, subprocess, sys
run = subprocess.Popen(["./capellanote", "read", sys.argv[1]], stdout=subprocess.PIPE, stderr=subprocess.PIPE)
run.stdout.readline()
children = subprocess.run(["ps", "-A", "-o", "pid=,ppid="], capture_output=True, text=True).stdout.split("\n")
for line in children:
    words = line.split()
    if len(words) == 2 and int(words[1]) == run.pid:
        os.kill(int(words[0]), signal.SIGKILL)
run.stdout.read()
said = run.stderr.read().decode()
status = run.wait()
if status != 2 or "ended by signal 9" not in said:
    sys.exit("status %d: %s" % (status, said[:300]))
END

# CDPATH, and a caller's own descriptor 3.
ln -sfn "$PWD" "$room/status/linked"
(cd "$room/status" && CDPATH=/:$room:. linked/capellanote check "$sample") >"$room/out" 2>"$room/err"
status=$?
is "status: CDPATH" 0 "$sample: accepted, 5 records" ""
for task in "check $sample" "read $sample" "fetch LOT $sample"; do
    # shellcheck disable=SC2086
    in_room ./capellanote $task 3>"$room/three" >"$room/out" 2>"$room/err"
    [ $? = 0 ] && [ ! -s "$room/three" ] && ok || bad "status: a caller's descriptor 3" "$(cat "$room/three" "$room/err")"
done

[ -z "$(ls -A "$room/tmp")" ] && ok || bad "status: temporary files" "left behind: $(ls -A "$room/tmp")"
