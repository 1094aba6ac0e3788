# What holds for every verb: options behind the words, standard input, molfiles beside SDfiles, many files by one process, outputs that cannot be written,
# closed descriptors, readers that stop, signals, -o, names of any bytes, and a TMPDIR of any kind. Sourced by tests/run, after tests/options.sh.

v=$room/verbs
mkdir "$v" "$v/tmp" "$v/many"
sample=$PWD/examples/sample.sdf damaged=$PWD/examples/damaged.sdf door=$PWD/examples/door.log
sed -n 1,9p "$sample" >"$v/one.mol"
cp "$v/one.mol" "$v/plain"
sed 's/$/\r/' "$v/one.mol" >"$v/crlf.mol"
{ cat "$v/one.mol" && echo '$$$$'; } >"$v/one.sdf"
cp "$sample" "$v/bad.mol"
sed 's/00421/0421/; s/^AB-/AC-/' "$sample" >"$v/other.sdf"
for i in $(seq 1 800); do cat "$sample"; done >"$v/long.sdf"
for i in $(seq 1 30); do cat "$v/long.sdf"; done >"$v/huge.sdf"
sed 's/^AB-/AC-/' "$v/long.sdf" >"$v/long-other.sdf"
in_tmp() { TMPDIR=$v/tmp "$@"; }

# Options before the words and behind them.
for task in "check|--all|$sample" "count|--progress|$sample" "read|--progress|$sample" "fetch|--tsv|LOT $sample" "fetch|-n LOT|$sample" "names|--progress|$sample" \
    "canon|--progress|$sample" "mend|-o -|$damaged" "pieces|--sdfile|$sample" "formula|--progress|$sample" "same|--progress|$sample $v/other.sdf" \
    "compare|--json|$sample $v/other.sdf" "replay|-o -|$door" "stock|--json|$door $sample" "tally|--json|$sample" "report|-o -|$sample"; do
    IFS='|' read -r verb option words <<<"$task"
    # shellcheck disable=SC2086
    got ./capellanote $verb $option $words
    before=$status
    cp "$room/out" "$room/expected"
    # shellcheck disable=SC2086
    got ./capellanote $verb $words $option
    [ "$status" = "$before" ] && [ "$status" -lt 2 ] && [ -s "$room/out" ] && cmp -s "$room/out" "$room/expected" && ok || bad "options behind the words: $verb" "status $status, not $before: $(head -c 300 "$room/out" "$room/err")"
done

# Standard input through a pipe, once.
for task in "names @" "tally @" "tally --json @" "tally $sample @" "mend @" "compare $v/other.sdf @" "same @ $sample" "stock --json $door @" "stock @ $sample" "canon --molfile @" "count --molfile @" "formula @"; do
    case $task in *--molfile*) file=$v/plain ;; "stock @"*) file=$door ;; *) file=$sample ;; esac
    # shellcheck disable=SC2086
    ./capellanote ${task/@/$file} >"$room/expected" 2>"$room/err"
    right=$?
    # shellcheck disable=SC2086
    cat "$file" | ./capellanote ${task/@/-} >"$room/out" 2>"$room/err"
    status=$?
    sed -i "s,\"file\":\"$file\",\"file\":\"-\"," "$room/expected"
    [ "$status" = "$right" ] && [ "$status" -lt 2 ] && cmp -s "$room/out" "$room/expected" && ok || bad "standard input: $task" "status $status, not $right: $(head -c 300 "$room/out" "$room/err")"
done
for task in "check" "names" "tally" "fetch LOT" "compare" "same" "stock $door" "report -o $v/page.html"; do
    # shellcheck disable=SC2086
    ./capellanote $task - - <"$sample" >"$room/out" 2>"$room/err"
    status=$?
    is "standard input twice: ${task%% *}" 2 "" "- stands twice"
done

# Molfiles by name or option, beside SDfiles, in every verb.
got ./capellanote count "$v/one.mol"
is "molfile: count" 0 "accepted 1" ""
got ./capellanote count --molfile "$v/plain"
is "molfile: count by option" 0 "accepted 1" ""
got ./capellanote count "$v/bad.mol"
is "molfile: count of a refused one" 1 "refused 18 line 10 column 1" ""
got ./capellanote count --sdfile "$v/bad.mol"
is "molfile: count of an SDfile by option" 0 "accepted 5" ""
got ./capellanote names "$v/one.mol" "$sample" "$v/crlf.mol"
is "molfile: names" 0 "$(./capellanote names "$sample")" ""
sed '$d' "$v/one.sdf" >"$room/expected" # it is canonical
for file in one.mol crlf.mol; do
    got ./capellanote canon "$v/$file"
    is "molfile: canon of $file" 0 "$(cat "$room/expected")" ""
done
got ./capellanote canon "$v/plain" --molfile -o "$v/plain"
[ "$status" = 0 ] && cmp -s "$v/plain" "$room/expected" && ok || bad "molfile: canon by option, onto itself" "status $status: $(cat "$room/err")"
got ./capellanote canon "$v/bad.mol"
is "molfile: canon of a refused one" 1 "" "$v/bad.mol:10:1: refused 18: "
got ./capellanote canon "$v/none.mol"
is "molfile: canon of none" 2 "" "none.mol: No such file or directory"
got ./capellanote formula "$v/one.mol"
is "molfile: formula" 1 '{"record":1,"refused":22}' ""
got ./capellanote same "$v/one.mol" "$v/one.sdf"
is "molfile: same" 0 "" ""
got ./capellanote same "$v/one.mol" "$v/bad.mol"
is "molfile: same as a refused one" 2 "" "$v/bad.mol:10:1: refused 18: "
got ./capellanote compare "$v/crlf.mol" "$v/one.sdf"
is "molfile: compare" 0 "no difference in 1 record" ""
got ./capellanote compare "$v/bad.mol" "$v/one.mol"
is "molfile: compare of a refused one" 2 "" "$v/bad.mol:10:1: refused 18: "
got ./capellanote fetch LOT "$v/one.mol" "$v/bad.mol" "$sample"
[ "$status" = 1 ] && [ "$(wc -l <"$room/out")" = 6 ] && [ "$(sed -n 1p "$room/out")" = "{\"file\":\"$v/one.mol\",\"record\":1,\"line\":1,\"value\":null}" ] && grep -q 'bad.mol:10:1: refused 18' "$room/err" && grep -q 'one.mol: no record has an item named LOT' "$room/err" && ok || bad "molfile: fetch" "status $status: $(head -c 300 "$room/out" "$room/err")"
got ./capellanote tally "$v/one.mol" "$v/bad.mol" "$sample"
is "molfile: tally" 1 "     1 Alder & Finch
     5 missing
     6 total" "$v/bad.mol:10:1: refused 18: "
got ./capellanote stock --json "$door" "$v/bad.mol" "$v/one.mol"
[ "$status" = 1 ] && grep -qF "{\"file\":\"$v/one.mol\",\"record\":1,\"no_key\":\"supplier missing\"}" "$room/out" && ! grep -q bad.mol "$room/out" && grep -q 'bad.mol:10:1: refused 18' "$room/err" && ok || bad "molfile: stock" "status $status: $(head -c 300 "$room/out" "$room/err")"

# Many files by one process, and molfiles among them by one more; $o/kit is the stand-in of tests/options.sh that writes down each start.
for i in $(seq 1 200); do cp "$sample" "$v/many/$i.sdf"; done
for i in 7 70 170; do cp "$v/one.mol" "$v/many/$i.mol"; done
for task in "names|1|$v/many/*.sdf" "tally|1|$v/many/*.sdf" "stock $door|1|$v/many/*.sdf" "fetch LOT|1|$v/many/*.sdf" "check|2|$v/many/*" "names|2|$v/many/*" "tally|2|$v/many/*"; do
    IFS='|' read -r verb starts words <<<"$task"
    rm -f "$o/starts"
    # shellcheck disable=SC2086
    got env RATTLE_HOME="$o/kit" ./capellanote $verb $words
    [ "$status" -lt 2 ] && [ "$(wc -l <"$o/starts")" = "$starts" ] && ok || bad "many files: $verb" "status $status, $(wc -l <"$o/starts") processes, not $starts: $(head -c 300 "$room/err")"
done
got ./capellanote tally "$v"/many/*
is "many files: tally" 0 "   200 Alder & Finch
   803 missing
  1003 total" ""

# As many names as a command line takes are handed on.
names=$(for i in $(seq 1 60000); do echo x; done)
# shellcheck disable=SC2086
(cd "$v" && "$OLDPWD/capellanote" check $names one.mol) >"$room/out" 2>"$room/err"
status=$?
[ "$status" = 2 ] && [ "$(cat "$room/out")" = "one.mol: accepted, 1 record
60001 files: 1 accepted with 1 record, 0 refused, 60000 not read" ] && ok || bad "check: 60,001 names" "status $status: $(tail -n 1 "$room/out" | head -c 300) $(head -n 1 "$room/err" | head -c 300)"

# A full disk.
for task in "names $sample" "tally $sample" "tally --json $sample" "mend $sample" "compare $sample $v/other.sdf" "compare --json $sample $v/other.sdf" "stock $door $sample" \
    "stock --json $door $sample" "canon $v/one.mol" "explain 17" "report -o - $sample" "check --all --json $damaged" "build"; do
    # shellcheck disable=SC2086
    in_tmp ./capellanote $task >/dev/full 2>"$room/err"
    status=$?
    [ "$status" = 2 ] && grep -Eq 'standard output: |cannot be written' "$room/err" && ! grep -q 'of no refusal' "$room/err" && ok || bad "full disk: ${task%% /*}" "status $status: $(head -c 300 "$room/err")"
done

# The same with an awk whose status says nothing of what could not be written, as that of many machines.
mkdir "$v/awk"
printf '#!/bin/sh\n%s "$@" 2>/dev/null\nexit 0\n' "$(command -v awk)" >"$v/awk/awk"
chmod +x "$v/awk/awk"
for task in "check $sample" "names $sample" "fetch LOT $sample" "canon $v/one.mol"; do
    # shellcheck disable=SC2086
    in_tmp env PATH="$v/awk:$PATH" ./capellanote $task >/dev/full 2>"$room/err"
    status=$?
    [ "$status" = 2 ] && grep -q 'standard output: No space left on device' "$room/err" && ok || bad "full disk, another awk: ${task%% *}" "status $status: $(head -c 300 "$room/err")"
    # shellcheck disable=SC2086
    in_tmp env PATH="$v/awk:$PATH" ./capellanote $task >&- 2>"$room/err"
    status=$?
    [ "$status" = 2 ] && grep -q 'standard output: ' "$room/err" && ok || bad "closed standard output, another awk: ${task%% *}" "status $status: $(head -c 300 "$room/err")"
done

# Closed descriptors: the output and its status are as they were, and without standard output it is 2.
for task in "names $sample" "tally $sample" "mend $damaged" "compare $sample $v/other.sdf" "stock $door $sample" "formula $sample" "replay $door" "explain 17" "canon $v/one.mol" "same $sample $v/other.sdf"; do
    # shellcheck disable=SC2086
    in_tmp ./capellanote $task >"$room/expected" 2>"$room/err"
    right=$?
    # shellcheck disable=SC2086
    in_tmp ./capellanote $task >"$room/out" 2>&- <&-
    status=$?
    : >"$room/err"
    is "closed descriptors: ${task%% *}" "$right" "$(cat "$room/expected")" ""
    # shellcheck disable=SC2086
    in_tmp ./capellanote $task 3>"$room/three" 4>&3 >"$room/out" 2>/dev/null
    [ $? = "$right" ] && [ ! -s "$room/three" ] && cmp -s "$room/out" "$room/expected" && ok || bad "a caller's descriptor 3: ${task%% *}" "$(head -c 300 "$room/three")"
    # shellcheck disable=SC2086
    in_tmp ./capellanote $task >&- 2>"$room/err"
    status=$?
    [ "$status" = 2 ] && grep -q 'standard output: ' "$room/err" && ok || bad "closed standard output: ${task%% *}" "status $status: $(head -c 300 "$room/err")"
done

# Whoever reads stops reading.
for task in "pieces $v/long.sdf" "formula $v/long.sdf" "mend $v/long.sdf" "compare $v/long.sdf $v/long-other.sdf" "check --json $v/long.sdf $names" "fetch --tsv LOT $v/long.sdf"; do
    # shellcheck disable=SC2086
    (cd "$v" && in_tmp "$OLDPWD/capellanote" $task 2>"$room/err") | head -n 1 >"$room/out"
    status=${PIPESTATUS[0]}
    case $task in check*) ;; *) [ ! -s "$room/err" ] || status=said ;; esac
    [ "$status" = 141 ] && ok || bad "into head: ${task%% *}" "status $status: $(head -c 300 "$room/err")"
done

# A signal stops a command that waits for standard input, for a pipe or for a page, at once, and nothing is left.
in_tmp python3 - "$v" "$sample" <<'END' && ok || bad "a signal while nothing comes" "see above"
import os, shutil, signal, subprocess, sys, threading, time
v, sample = sys.argv[1:]
os.mkfifo(v + "/pipe")
bad = 0

def begun(words, **how):
    return words, subprocess.Popen(["./capellanote"] + words, stdout=subprocess.PIPE, stderr=subprocess.PIPE, **how)

def stopped(words, run, number):
    global bad
    run.send_signal(number)
    try:
        status = run.wait(timeout=5)
    except subprocess.TimeoutExpired:
        run.kill()
        status = "none after 5 seconds"
    if status != -number:
        print(words, "status", status)
        bad = 1

for number in (signal.SIGTERM, signal.SIGINT, signal.SIGHUP):
    signal.signal(number, signal.SIG_DFL) # also where the tests run in the background, which ignores some
    runs = [begun(words, stdin=subprocess.PIPE)
            for words in (["read", "-"], ["fetch", "LOT", sample, "-"], ["canon", v + "/pipe"], ["tally", "-"], ["check", "-"], ["count"])]
    time.sleep(1)
    runs.append(begun(["report", "-o", v + "/never.html", v + "/huge.sdf"]))
    time.sleep(0.3) # a quick machine makes the page within a second
    for words, run in runs:
        stopped(words, run, number)
# Killed outright, it says nothing more: no sums of files that it has not read.
if subprocess.run("setpriv --pdeathsig TERM true", shell=True, stderr=subprocess.DEVNULL).returncode == 0:
    for words in (["check", "-", sample], ["read", "-"], ["read", v + "/pipe"]):
        run = subprocess.Popen(["./capellanote"] + words, stdin=subprocess.PIPE, stdout=subprocess.PIPE)
        time.sleep(1)
        run.kill()
        run.wait()
        reader = threading.Thread(target=lambda: run.stdout.read())
        reader.start()
        reader.join(5)
        if reader.is_alive():
            print(words, "killed outright: a program goes on")
            bad = 1
    run = subprocess.Popen(["./capellanote", "check", "-", sample], stdin=subprocess.PIPE, stdout=subprocess.PIPE)
    time.sleep(1)
    run.kill()
    said = run.stdout.read()
    if said:
        print("check, killed outright:", said)
        bad = 1
    for name in os.listdir(os.environ["TMPDIR"]):
        shutil.rmtree(os.path.join(os.environ["TMPDIR"], name))
if os.path.exists(v + "/never.html"):
    print("a page is there")
    bad = 1
time.sleep(1)
left = [line for line in subprocess.run(["ps", "-A", "-o", "pid=,args="], capture_output=True, text=True).stdout.split("\n")
        if v in line and line.split()[0] != str(os.getpid())]
if left:
    print("left:", left)
    bad = 1
sys.exit(bad)
END
[ -z "$(ls -A "$v/tmp")" ] && ok || bad "a signal while nothing comes" "left behind: $(ls -A "$v/tmp")"

# A program that is not whole breaks down by a signal, too.
mkdir -p "$v/kit/toolchain/lib"
printf '#!/bin/sh\nulimit -c 0\nkill -s "$SIGNAL" $$\n' >"$v/kit/toolchain/lib/ld-linux-x86-64.so.2"
chmod +x "$v/kit/toolchain/lib/ld-linux-x86-64.so.2"
for signal in SEGV BUS ILL; do
    got env SIGNAL=$signal RATTLE_HOME="$v/kit" ./capellanote count "$sample"
    is "a program that breaks down: $signal" 2 "" "build it anew: capellanote build"
done

# -o: links that lead to themselves, standard output, what may not be replaced, the mode of what stood there, a folder that is not yours.
ln -s there "$v/here"
ln -s here "$v/there"
got timeout 20 ./capellanote canon "$sample" -o "$v/here"
is "-o: a link that leads to itself" 2 "" "a link that leads back to itself"
got ./capellanote canon "$sample" -o -
is "-o: -" 0 "$(cat "$sample")" ""
(cd "$v" && "$OLDPWD/capellanote" canon "$sample" -o -) >"$room/out"
[ ! -e "$v/-" ] && ok || bad "-o: -" "a file of that name was made"
for name in /dev/stdout /dev/fd/1; do
    { echo before && ./capellanote canon "$sample" -o "$name"; } >"$room/out" 2>"$room/err"
    status=$?
    is "-o: $name" 0 "before
$(cat "$sample")" ""
done
got ./capellanote canon "$sample" -o ""
is "-o: no name" 2 "" "-o takes a name"
got ./capellanote canon "$sample" -o= "$v/made"
is "-o: no option of that name" 2 "" "unknown option -o="
echo before >"$v/secret"
chmod 600 "$v/secret"
got ./capellanote canon "$sample" -o "$v/secret"
case "$status $(ls -l "$v/secret")" in "0 -rw-------"*) ok ;; *) bad "-o: the mode of what stood there" "status $status: $(ls -l "$v/secret")" ;; esac
got ./capellanote fetch LOT "$sample" "$damaged" -o "$v/fetched"
[ "$status" = 1 ] && [ "$(wc -l <"$v/fetched")" = 5 ] && ok || bad "-o: fetch of a refused file and another" "status $status: $(head -c 300 "$room/err")"
got ./capellanote fetch LOT "$damaged" -o "$v/fetched-none"
[ "$status" = 1 ] && [ ! -e "$v/fetched-none" ] && ok || bad "-o: fetch of a refused file" "status $status"
as_nobody() { if [ "$(id -u)" = 0 ]; then setpriv --reuid=65534 --regid=65534 --clear-groups "$@"; else "$@"; fi; }
chmod 755 "$room" "$v"
if as_nobody sh -c 'cd "$1" && cat capellanote examples/sample.sdf && [ -x "$2" ]' sh "$PWD" "$v" >/dev/null 2>&1; then
    mkdir "$v/open" "$v/shut"
    echo before >"$v/open/kept"
    chmod 444 "$v/open/kept"
    chmod 777 "$v/open"
    chmod 555 "$v/shut"
    got as_nobody ./capellanote canon examples/sample.sdf -o "$v/open/kept"
    is "-o: what may not be written" 2 "" "kept: may not be written by you"
    [ "$(cat "$v/open/kept")" = before ] && ok || bad "-o: what may not be written" "it was replaced"
    got as_nobody ./capellanote canon examples/sample.sdf -o "$v/shut/made"
    is "-o: a folder that may not be written" 2 "" "shut/made: cannot be written there"
else
    echo "tests/verbs.sh: no other user can be tried here: not tried where nothing may be written"
fi

# Names of items and of files: empty ones, spaces at the end, and what a table makes of tabs and line feeds.
for before in "" "-n" "-n LOT -n"; do
    # shellcheck disable=SC2086
    got timeout 20 ./capellanote fetch $before "" "$sample"
    [ "$status" = 2 ] && [ ! -s "$room/out" ] && grep -q 'this one is empty' "$room/err" && ok || bad "fetch: an empty name" "status $status: $(head -c 300 "$room/out" "$room/err")"
done
got ./capellanote fetch -n "LOT
SUPPLIER" "$sample"
is "fetch: a name with a line end" 2 "" "no item has a line end in its name"
got ./capellanote fetch 'LOT ' "$sample"
grep -q 'an item named LOT $' "$room/err" && ok || bad "fetch: a space at the end of a name" "$(cat "$room/err")"
odd_name=$(printf 'a\tb\nc\\d.sdf')
cp "$sample" "$v/$odd_name"
got ./capellanote fetch --tsv LOT "$v/$odd_name"
[ "$status" = 0 ] && [ "$(wc -l <"$room/out")" = 6 ] && [ "$(sed -n 2p "$room/out")" = "$v"'/a\tb\nc\\d.sdf	1	00417' ] && ok || bad "fetch --tsv: a file's name with tab, line feed and backslash" "$(sed -n 2,3p "$room/out")"
for name in "-dash.sdf" "50% %s %n.sdf" " x " "$(printf 'not \377 utf-8.sdf')" "a=b.sdf"; do
    cp "$sample" "$v/$name"
    for task in check "fetch LOT" names canon tally count mend; do
        # shellcheck disable=SC2086
        (cd "$v" && "$OLDPWD/capellanote" $task -- "$name") >"$room/out" 2>"$room/err"
        status=$?
        # shellcheck disable=SC2086
        expected=$(./capellanote $task "$sample")
        is "a file named '$name': ${task%% *}" 0 "${expected//"$sample"/"$name"}" ""
    done
done

# A TMPDIR of any kind: relative, with spaces and backslashes, without room.
mkdir "$v/a \\b\\n c"
got env TMPDIR="$v/a \\b\\n c" ./capellanote fetch -n LOT -n SUPPLIER "$sample" "$v/one.mol"
[ "$status" = 0 ] && [ "$(wc -l <"$room/out")" = 6 ] && ok || bad "TMPDIR with a backslash" "status $status: $(head -c 300 "$room/err")"
(cd "$v" && TMPDIR=tmp "$OLDPWD/capellanote" fetch LOT one.mol "$sample") >"$room/out" 2>"$room/err"
[ $? = 0 ] && [ "$(wc -l <"$room/out")" = 6 ] && ok || bad "a relative TMPDIR" "$(head -c 300 "$room/err")"
mkdir "$v/small"
if mount -t tmpfs -o size=64k tmpfs "$v/small" 2>/dev/null; then
    for task in "fetch LOT $v/long.sdf $sample" "fetch LOT $v/one.mol $v/long.sdf"; do
        # shellcheck disable=SC2086
        got env TMPDIR="$v/small" ./capellanote $task
        is "TMPDIR without room: ${task%% *}" 2 "" "set TMPDIR to a folder with room"
    done
    for task in "read -" "tally -" "canon -"; do
        # shellcheck disable=SC2086
        TMPDIR=$v/small ./capellanote $task <"$v/long.sdf" >"$room/out" 2>"$room/err"
        status=$?
        is "TMPDIR without room: $task" 2 "" "set TMPDIR to a folder with room"
    done
    head -c 65536 /dev/zero >"$v/small/full" 2>/dev/null
    for task in "check $sample" "read $sample" "tally $sample" "explain 17"; do
        # shellcheck disable=SC2086
        got env TMPDIR="$v/small" ./capellanote $task
        is "a full TMPDIR: ${task%% *}" 2 "" "set TMPDIR to a folder with room"
    done
    umount "$v/small"
else
    echo "tests/verbs.sh: no small file system can be mounted here: a full TMPDIR is not tried"
fi

# Called by its shell, from its folder.
got sh capellanote count examples/sample.sdf
is "sh capellanote" 0 "accepted 5" ""
