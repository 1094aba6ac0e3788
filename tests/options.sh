# Verbs as people type them: options anywhere, names of any bytes, one process for many files, both kinds, standard input, -o, fetch. Sourced by tests/run.

o=$room/options
mkdir "$o"
sample=$PWD/examples/sample.sdf damaged=$PWD/examples/damaged.sdf
sed -n 1,9p "$sample" >"$o/one.mol"
cp "$o/one.mol" "$o/ONE.MOL"
cp "$o/one.mol" "$o/plain"
printf 'RABCD00000417\001\000D\000\000\000\000' >"$o/log"

# Options before, between and behind the names; behind -- nothing is an option.
got ./capellanote check "$o/plain" --molfile
is "options: behind the file" 0 "$o/plain: accepted, 1 record" ""
got ./capellanote fetch LOT "$sample" --progress
is "options: behind two words" 0 "$(./capellanote fetch --progress LOT "$sample")" ""
got ./capellanote fetch LOT --progress "$sample"
is "options: between two words" 0 "$(./capellanote fetch LOT "$sample")" ""
(cd "$o" && cp plain ./--molfile && "$OLDPWD/capellanote" check --molfile -- --molfile) >"$room/out" 2>"$room/err"
status=$?
is "options: a name that looks like one" 0 "--molfile: accepted, 1 record" ""
got ./capellanote read --molfile --sdfile "$o/plain"
is "options: both kinds of one file" 2 "" "exclude each other"
got ./capellanote read "$sample" -o
is "options: -o without a name" 2 "" "-o takes a value"
got ./capellanote read "$sample" --progress=5
is "options: a value that is not taken" 2 "" "--progress takes no value"
for name in $(./capellanote help | sed -n 's/^  capellanote \([a-z]*\).*/\1/p'); do
    got ./capellanote "$name" --help
    [ "$status" = 0 ] && [ ! -s "$room/err" ] && [ "$(head -n 1 "$room/out" | cut -d ' ' -f 1-3)" = "usage: capellanote $name" ] && [ "$(wc -l <"$room/out")" -gt 4 ] && ok || bad "$name --help" "status $status: $(head -c 300 "$room/out" "$room/err")"
    cp "$room/out" "$room/help"
    got ./capellanote help "$name"
    is "help $name" 0 "$(cat "$room/help")" ""
done
got ./capellanote check - -
is "check: standard input twice" 2 "" "- stands twice"
got env TMPDIR="$o/nowhere" ./capellanote check "$sample"
is "no temporary folder" 2 "" "set TMPDIR to a folder with room"
got ./capellanote help tidy
is "help: no such verb" 2 "" "unknown command tidy"
got ./capellanote --version
case "$status $(cat "$room/out")" in "0 capellanote "[0-9]*) ok ;; *) bad "--version" "$(cat "$room/out" "$room/err")" ;; esac

# Names reach the programs byte for byte.
odd="$o/ends in a line feed
"
cp "$sample" "$odd"
cp "$damaged" "${odd%?}"
got ./capellanote check "$odd"
is "names: a line feed at the end" 0 "$odd: accepted, 5 records" ""
got ./capellanote canon "$odd"
is "names: a line feed at the end, canon" 0 "$(cat "$sample")" ""
got ./capellanote read "$odd" -o "$odd.json
"
[ "$status" = 0 ] && [ -s "$odd.json
" ] && ok || bad "names: -o with a line feed at the end" "$(cat "$room/err")"
for name in "a'b" 'a"b' 'a$b' 'a`b' 'a\b' ' ' '*' "$(printf '\351')"; do
    cp "$sample" "$o/$name.sdf"
    got ./capellanote check "$o/$name.sdf"
    is "names: $name" 0 "$o/$name.sdf: accepted, 5 records" ""
done

# Many files are judged by one process: a stand-in for the loader writes down each start.
kit=$o/kit/toolchain/lib
mkdir -p "$kit"
real=${RATTLE_HOME:-$(dirname "$(dirname "$(readlink -f "$(command -v rt)")")")}/toolchain
cat >"$kit/ld-linux-x86-64.so.2" <<END
#!/bin/sh
echo started >>"$o/starts"
shift 2
emulator=$real/bin/qemu-x86_64
[ -x "\$emulator" ] || emulator=
exec \$emulator "$real/lib/ld-linux-x86-64.so.2" --library-path "$real/lib" "\$@"
END
chmod +x "$kit/ld-linux-x86-64.so.2"
mkdir "$o/many"
for i in $(seq 1 200); do cp "$sample" "$o/many/$i.sdf"; done
cp "$damaged" "$o/many/77.sdf"
rm "$o/many/78.sdf"
RATTLE_HOME=$o/kit ./capellanote check "$o"/many/*.sdf "$o/many/78.sdf" >"$room/out" 2>"$room/err"
status=$?
[ "$status" = 2 ] && [ "$(wc -l <"$o/starts")" = 1 ] && [ "$(tail -n 1 "$room/out")" = "200 files: 198 accepted with 990 records, 1 refused, 1 not read" ] && ok || bad "check: 200 files" "status $status, $(wc -l <"$o/starts") processes: $(tail -n 1 "$room/out")"
[ "$(sed -n 's/: accepted.*//p; s/:29:1: refused.*//p' "$room/out")" = "$(ls "$o"/many/*.sdf)" ] && ok || bad "check: 200 files" "not in the order of their names"

# Both kinds in one run, by name or by option.
got ./capellanote check "$o/one.mol" "$sample" "$o/ONE.MOL" "$damaged"
grep -F "$damaged:29:1: refused 17: " "$room/out" >"$room/line"
grep -E ': accepted, |^4 files: ' "$room/out" >"$room/lines"
[ -s "$room/line" ] && mv "$room/lines" "$room/out"
: >"$room/err"
is "kinds: both in one run" 1 "$o/one.mol: accepted, 1 record
$sample: accepted, 5 records
$o/ONE.MOL: accepted, 1 record
4 files: 3 accepted with 7 records, 1 refused, 0 not read" ""
got ./capellanote check --sdfile "$o/one.mol"
case "$status$(cat "$room/out")" in "1$o/one.mol:10:1: refused 19: "*) ok ;; *) bad "kinds: --sdfile" "$(cat "$room/out")" ;; esac
got ./capellanote read "$o/one.mol"
is "kinds: read by name" 0 "$(./capellanote read --molfile "$o/plain")" ""
got ./capellanote pieces "$o/one.mol"
is "kinds: pieces by name" 0 "$(./capellanote pieces --molfile "$o/plain")" ""

# Standard input in every verb, through a pipe.
piped() { # EXPECTED-FROM WORDS..., the last one is replaced by -
    file=$1
    shift
    # shellcheck disable=SC2094
    cat "$file" | ./capellanote "$@" - >"$room/out" 2>"$room/err"
    status=$?
    is "standard input: $1" 0 "$(./capellanote "$@" "$file" | sed "s,^$file:,-:,")" ""
}
piped "$sample" check
piped "$sample" count
piped "$sample" read
piped "$sample" fetch LOT
piped "$sample" fetch -n LOT -n SUPPLIER
piped "$sample" canon
piped "$sample" pieces
piped "$o/log" replay
piped "$o/plain" read --molfile
formula_sample=$o/formula.sdf
sed 's/^>  <LOT>$/>  <FORMULA>/; s/^0042*1[789]$/C/' "$sample" >"$formula_sample"
./capellanote formula "$formula_sample" >"$room/expected" 2>/dev/null
cat "$formula_sample" | ./capellanote formula - >"$room/out" 2>"$room/err"
cmp -s "$room/expected" "$room/out" && [ -s "$room/out" ] && ok || bad "standard input: formula" "$(head -c 300 "$room/out" "$room/err")"
cat "$damaged" | ./capellanote read - >"$room/out" 2>"$room/err"
status=$?
is "standard input: refused" 1 "" "-:29:1: refused 17: "

# -o: the file appears when it is complete, and not before; what stood there stays if it does not.
out=$o/made.json
got ./capellanote read "$sample" -o "$out"
[ "$status" = 0 ] && [ ! -s "$room/out" ] && ./capellanote read "$sample" | cmp -s - "$out" && ok || bad "-o: read" "status $status: $(cat "$room/err")"
echo before >"$out"
got ./capellanote read -o "$out" "$damaged"
[ "$status" = 1 ] && [ "$(cat "$out")" = before ] && ok || bad "-o: a refused file" "status $status: $(cat "$out")"
cp "$sample" "$o/self.sdf"
sed 's/$/\r/' "$sample" >"$o/self.sdf"
got ./capellanote canon "$o/self.sdf" -o "$o/self.sdf"
[ "$status" = 0 ] && cmp -s "$o/self.sdf" "$sample" && ok || bad "-o: canon to its own file" "status $status: $(cat "$room/err")"
got ./capellanote formula "$formula_sample" -o "$o/formula.json"
[ "$status" = 1 ] && cmp -s "$o/formula.json" "$room/expected" && ok || bad "-o: formula that does not agree" "status $status"
got ./capellanote canon "$sample" -o "$o"
is "-o: a directory" 2 "" "$o: is a directory"
got ./capellanote canon "$sample" -o "$o/none/there.sdf"
is "-o: no such folder" 2 "" "cannot be written"
got ./capellanote canon "$sample" -o /dev/full
is "-o: a full device" 2 "" "standard output: No space left on device"
ln -s made.sdf "$o/link.sdf"
got ./capellanote canon "$sample" -o "$o/link.sdf"
[ -L "$o/link.sdf" ] && cmp -s "$o/made.sdf" "$sample" && ok || bad "-o: a link" "$(ls -l "$o/link.sdf")"
for i in $(seq 1 600); do cat "$sample"; done >"$o/long.sdf"
# The signal has to come while the command writes, so that it gets a file long enough for a busy machine, too.
for i in $(seq 1 20); do cat "$o/long.sdf"; done >"$o/for_a_signal.sdf"
python3 - "$o/for_a_signal.sdf" "$o/never.json" <<'END' && ok || bad "-o: a killed command" "the file is there, or what it was written to"
import glob, os, signal, subprocess, sys, time
name = sys.argv[2]
run = subprocess.Popen(["./capellanote", "read", sys.argv[1], "-o", name])
beside = os.path.join(os.path.dirname(name), ".capellanote.*")
while run.poll() is None and not any(os.path.getsize(f) for f in glob.glob(beside)):
    time.sleep(0.002)
run.send_signal(signal.SIGTERM)
run.wait()
sys.exit(1 if os.path.exists(name) or glob.glob(beside) else 0)
END
rm "$o/for_a_signal.sdf"
(umask 027 && ./capellanote canon "$sample" -o "$o/mode.sdf")
case $(ls -l "$o/mode.sdf") in -rw-r-----*) ok ;; *) bad "-o: the file's mode" "$(ls -l "$o/mode.sdf")" ;; esac
[ -z "$(ls -A "$o" | grep '^\.capellanote')" ] && ok || bad "-o" "left behind: $(ls -A "$o" | grep '^\.capellanote')"

# Several names and files, a process a name; a table; a name that no record has.
rm -f "$o/starts"
RATTLE_HOME=$o/kit ./capellanote fetch -n LOT -n SUPPLIER "$o"/many/*.sdf "$o/many/78.sdf" "$odd" >"$room/out" 2>"$room/err"
status=$?
[ "$status" = 2 ] && [ "$(wc -l <"$o/starts")" = 2 ] && [ "$(grep -c '"record":' "$room/out")" = 995 ] && grep -qF '{"file":"'"$o"'/ends in a line feed\u000a","record":1,' "$room/out" && grep -q '77.sdf:29:1: refused 17' "$room/err" && grep -q '78.sdf: No such file' "$room/err" && ok || bad "fetch: 201 files" "status $status, $(wc -l <"$o/starts") processes, $(wc -l <"$room/out") lines: $(head -c 300 "$room/err")"
got ./capellanote fetch DRUM "$sample" "$o/many/77.sdf" "$o/many/1.sdf"
[ "$status" = 1 ] && [ "$(grep -c 'no record has an item named DRUM' "$room/err")" = 2 ] && grep -q '1.sdf: no record has' "$room/err" && ok || bad "fetch: names that no record of a file has" "$(cat "$room/err")"
cat "$sample" | ./capellanote fetch LOT "$o/many/1.sdf" - "$o/many/2.sdf" >"$room/out" 2>"$room/err"
[ "$(grep -c '^{"file":"-","record":' "$room/out")" = 5 ] && [ "$(wc -l <"$room/out")" = 15 ] && ok || bad "fetch: standard input between files" "$(head -c 300 "$room/out" "$room/err")"
got ./capellanote fetch -n LOT -n SUPPLIER "$sample" "$o/long.sdf"
[ "$status" = 0 ] && [ "$(sed -n 3p "$room/out")" = "{\"file\":\"$sample\",\"record\":3,\"line\":35,\"values\":{\"LOT\":[\"00419\"],\"SUPPLIER\":[\"Alder & Finch\"]}}" ] && [ "$(wc -l <"$room/out")" = 3005 ] && ok || bad "fetch: two names, two files" "status $status: $(sed -n 3p "$room/out")"
got ./capellanote fetch LOT "$sample" "$damaged" "$o/long.sdf"
[ "$status" = 1 ] && [ "$(wc -l <"$room/out")" = 3005 ] && grep -q 'damaged.sdf:29:1: refused 17' "$room/err" && ok || bad "fetch: three files, the second refused" "status $status"
got ./capellanote fetch --tsv -n LOT -n SUPPLIER "$sample"
is "fetch: a table" 0 "file	record	LOT	SUPPLIER
$sample	1	00417	
$sample	2	00418	
$sample	3	00419	Alder & Finch
$sample	4	00420	
$sample	5	00421	" ""
got ./capellanote fetch LOTT "$sample"
[ "$status" = 0 ] && grep -q "sample.sdf: no record has an item named LOTT" "$room/err" && [ "$(grep -c '"value":null' "$room/out")" = 5 ] && ok || bad "fetch: a name that no record has" "status $status: $(cat "$room/err")"
got ./capellanote fetch SUPPLIER "$sample"
[ "$status" = 0 ] && [ ! -s "$room/err" ] && ok || bad "fetch: a name that one record has" "$(cat "$room/err")"
sed 's/00419/a\\b "c"/; s/Alder & Finch/one/; s/^one$/one\ntwo/' "$sample" >"$o/odd.sdf"
got ./capellanote fetch --tsv -n LOT -n SUPPLIER "$o/odd.sdf"
[ "$(sed -n 4p "$room/out")" = "$o/odd.sdf	3	a\\\\b \"c\"	one\\ntwo" ] && ok || bad "fetch: a table with quotes, a backslash and two lines" "$(sed -n 4p "$room/out")"
got ./capellanote fetch -n LOT -n 'a"b\c' "$sample"
[ "$(sed -n 1p "$room/out")" = '{"record":1,"line":1,"values":{"LOT":["00417"],"a\"b\\c":null}}' ] && ok || bad "fetch: a name with quotes" "$(sed -n 1p "$room/out")"
got ./capellanote fetch -n LOT
is "fetch: no file" 2 "" "fetch takes"
: >"$o/none.sdf"
got ./capellanote fetch LOT "$o/none.sdf"
is "fetch: no records" 0 "" ""
