# Building and installing: progress, old programs, builds that are killed, beside each other, not allowed or failing; an installed copy. Sourced by tests/run.

i=$room/install
mkdir "$i" "$i/bin" "$i/tmp"
chmod 755 "$room" "$i" # another user tries it below
chmod 1777 "$i/tmp"
kit=${RATTLE_HOME:-$(dirname "$(dirname "$(readlink -f "$(command -v rt)")")")}

# A small repository with the command, whose programs are the built ones, and a stand-in for rt: it takes a while, writes down its
# calls and what it is told, and leaves a program as rt does.
repo=$i/repo
mkdir -p "$repo/docs"
cp -R capellanote command "$repo/"
cp docs/capellanote.1 "$repo/docs/"
printf '# Lines.\ntext:\nreader: text\nother: text\n# Programs.\ncheck_files: reader io\nrecords: reader other\n' >"$repo/crates.txt"
for crate in text reader other check_files records; do
    mkdir -p "$repo/crates/$crate/src"
    case $crate in check_files | records) echo >"$repo/crates/$crate/src/main.rt" ;; *) echo >"$repo/crates/$crate/src/lib.rt" ;; esac
done
cat >"$i/bin/rt" <<END
#!/bin/sh
program=\${PWD##*/}
echo "\$* \$program" >>"$i/calls"
echo wrote >&3
for crate in text reader "\$program"; do
    echo "rt: chose --jobs 2 for \$crate"
    sleep "\${SLOW:-0}"
    [ -z "\${FAILS:-}" ] || [ "\$crate" = text ] || { echo "rt: the library reader did not build, so nothing above it was checked"; exit 1; }
done
mkdir -p out
cp "$PWD/target/bin/\$program" out/
echo "rt: running out/\$program; to give it other input, run that file yourself"
echo ended >>"$i/calls"
END
chmod +x "$i/bin/rt"
cp examples/sample.sdf "$i/sample.sdf"
chmod -R a+rX "$i"
at_repo() { (cd "$i" && TMPDIR=$i/tmp RATTLE_HOME=$kit PATH=$i/bin:$PATH "$@"); }
good="sample.sdf: accepted, 5 records"
calls() { wc -l <"$i/calls"; }

got at_repo env SLOW=2 repo/capellanote check sample.sdf
is "build: at the first use" 0 "$good" "proving 1 of 3: text"
grep -q "proving 2 of 3: reader" "$room/err" && grep -q "proving 3 of 3: check_files" "$room/err" && ok || bad "build: progress" "$(cat "$room/err")"
(at_repo repo/capellanote check sample.sdf 3>"$i/three") >"$room/out" 2>"$room/err"
status=$?
is "build: once" 0 "$good" ""
[ "$(calls)" = 2 ] && ok || bad "build: once" "rt was called again: $(cat "$i/calls")"

# A program older than its sources, or than crates.txt, is told and built anew; a source of others changes nothing.
sleep 1
touch "$repo/crates/other/src/lib.rt"
got at_repo repo/capellanote check sample.sdf
is "build: a source of another program" 0 "$good" ""
touch "$repo/crates/reader/src/lib.rt"
(at_repo repo/capellanote check sample.sdf 3>"$i/three") >"$room/out" 2>"$room/err"
status=$?
is "build: a program older than its sources" 0 "$good" "check_files is older than its sources (crates/reader/src/lib.rt)"
[ ! -s "$i/three" ] && ok || bad "build: a caller's descriptor 3" "$(cat "$i/three")"
got at_repo repo/capellanote check sample.sdf
is "build: anew, once" 0 "$good" ""
sleep 1
rm "$repo/crates/other/src/lib.rt"
got at_repo repo/capellanote canon sample.sdf
is "build: another program" 0 "$(cat examples/sample.sdf)" "records is not built yet"

# A program that is broken, and how it is mended.
echo broken >"$repo/target/bin/check_files"
got at_repo repo/capellanote check sample.sdf
is "build: a broken program" 2 "" "the program check_files is broken"
grep -q "capellanote build" "$room/err" && ok || bad "build: a broken program" "nothing says what to do"
got at_repo repo/capellanote build
is "build: mends a broken program" 0 "built: check_files records" "check_files is broken"
got at_repo repo/capellanote check sample.sdf
is "build: mended" 0 "$good" ""

sleep 1
touch "$repo/crates.txt"
got at_repo repo/capellanote check sample.sdf
is "build: a program older than crates.txt" 0 "$good" "check_files is older than its sources (crates.txt)"

# A program that is cut anywhere, as by a full disk: one sentence that says what to do, and a build mends it.
for cut in 0 1 1000 9000 40000; do
    head -c "$cut" "$PWD/target/bin/check_files" >"$repo/target/bin/check_files"
    got at_repo repo/capellanote check sample.sdf
    [ "$status" = 2 ] && [ ! -s "$room/out" ] && grep -q "the program check_files is broken .*capellanote build" "$room/err" && ok || bad "build: a program cut at $cut" "status $status: $(head -c 300 "$room/out" "$room/err")"
done
got at_repo repo/capellanote build
is "build: mends a program that is cut" 0 "built: check_files records" "check_files is broken"

# A source that changes while it is built makes the program old again. TMPDIR may be relative.
sleep 1
touch "$repo/crates/reader/src/lib.rt"
at_repo env SLOW=1 TMPDIR=tmp repo/capellanote check sample.sdf >"$room/first" 2>&1 &
first=$!
while [ ! -s "$repo/target/building/process" ]; do sleep 0.1; done
sleep 0.5
touch "$repo/crates/reader/src/lib.rt"
wait "$first"
grep -q "$good" "$room/first" && ok || bad "build: a relative TMPDIR" "$(cat "$room/first")"
got at_repo repo/capellanote check sample.sdf
is "build: a source that changed meanwhile" 0 "$good" "check_files is older than its sources (crates/reader/src/lib.rt)"
got at_repo repo/capellanote check sample.sdf
is "build: a source that changed meanwhile, once" 0 "$good" ""

# A build that fails; without the toolchain; two at once; one that is killed.
touch "$repo/crates/reader/src/lib.rt"
got at_repo env FAILS=yes repo/capellanote check sample.sdf
is "build: fails" 2 "" "check_files not built; "
grep -q "the library reader did not build" "$room/err" && ok || bad "build: fails" "it does not say why: $(cat "$room/err")"
mkdir "$i/few"
for name in sh cat mktemp rm mkdir dirname basename readlink uname find awk sort sed head grep wc sleep ps id; do ln -s "$(command -v "$name")" "$i/few/$name"; done
got env PATH="$i/few" "$repo/capellanote" check "$i/sample.sdf"
is "build: no toolchain" 2 "" "the Rattle toolchain is not there"
at_repo env SLOW=2 repo/capellanote build >"$room/first" 2>&1 &
first=$!
while [ ! -s "$repo/target/building/process" ]; do sleep 0.1; done
got at_repo repo/capellanote check sample.sdf
is "build: two at once" 2 "" "another build is under way here (process $(head -n 1 "$repo/target/building/process"))"
wait "$first"
grep -q "^built: " "$room/first" && ok || bad "build: two at once" "the first: $(cat "$room/first")"
killed_build() { # SIGNAL
    touch "$repo/crates/reader/src/lib.rt"
    at_repo env SLOW=1 repo/capellanote check sample.sdf >"$room/first" 2>&1 &
    first=$!
    while [ "$(wc -l <"$repo/target/building/process" 2>/dev/null || echo 0)" -lt 2 ]; do sleep 0.1; done
    kill -s "$1" "$(head -n 1 "$repo/target/building/process")"
    wait "$first"
}
before=$(grep -c ended "$i/calls")
killed_build TERM 2>/dev/null
sleep 4
[ "$(grep -c ended "$i/calls")" = "$before" ] && [ ! -e "$repo/target/building" ] && ok || bad "build: killed" "rt went on, or the lock is still there"
grep -q "the build was stopped; call it again" "$room/first" && ok || bad "build: killed" "nothing says what to do: $(cat "$room/first")"
got at_repo repo/capellanote check sample.sdf
is "build: after a killed one" 0 "$good" "check_files is older"
sleep 1
killed_build KILL 2>/dev/null
got at_repo repo/capellanote check sample.sdf
is "build: the toolchain of a killed one is still at work" 2 "" "another build is under way"
sleep 4
sleep 1
touch "$repo/crates/reader/src/lib.rt"
got at_repo repo/capellanote check sample.sdf
is "build: after one that was killed at once" 0 "$good" "the last build was cut off"
rm -rf "$i/tmp"/capellanote.* # what that one left
[ ! -e "$repo/target/building" ] && ok || bad "build: the lock" "it is still there"

# Where nothing may be written. Root may everywhere, so there another user tries it.
as_other() {
    if [ "$(id -u)" = 0 ]; then setpriv --reuid=65534 --regid=65534 --clear-groups "$@"; else "$@"; fi
}
if as_other sh -c 'cd "$1" && cat repo/capellanote' sh "$i" >/dev/null 2>&1; then
    sleep 1
    touch "$repo/crates/reader/src/lib.rt"
    chmod -R a-w "$repo"
    got at_repo as_other repo/capellanote check sample.sdf
    is "build: not allowed" 2 "" "may not be written by you"
    got at_repo as_other repo/capellanote canon sample.sdf
    is "build: not allowed, another program" 2 "" "may not be written by you"
    chmod -R u+w "$repo"
    touch "$repo/target/built/check_files" "$repo/target/built/records"
    chmod -R a-w "$repo"
    got at_repo as_other repo/capellanote check sample.sdf
    is "build: not allowed, and not needed" 0 "$good" ""
    mkdir "$i/closed"
    chmod 555 "$i/closed"
    got at_repo as_other repo/capellanote install "$i/closed"
    is "install: not allowed" 2 "" "may not be written by you"
    got at_repo as_other env -u HOME repo/capellanote install
    [ "$(id -u)" != 0 ] || is "install: no HOME" 2 "" "HOME is not set: name the folder"
    chmod -R u+w "$repo" "$i/closed"
else
    echo "tests/install.sh: no other user can be tried here: not tried where nothing may be written"
fi

# An installed copy: from cron's PATH, without the toolchain, from another folder, moved, and by a link.
prefix="$i/a prefix"
got ./capellanote install "$prefix"
is "install" 0 "installed: $prefix/bin/capellanote" ""
mv "$prefix" "$i/moved"
bare() { (cd / && env -i PATH="$i/few" "$i/moved/bin/capellanote" "$@"); }
for name in mkfifo tail cut tr cp mv touch; do ln -sf "$(command -v "$name")" "$i/few/$name"; done
sample=$PWD/examples/sample.sdf
for task in check count read "fetch LOT" canon pieces formula; do
    # shellcheck disable=SC2086
    ./capellanote $task "$sample" >"$room/expected" 2>/dev/null
    # shellcheck disable=SC2086
    got bare $task "$sample"
    [ -s "$room/out" ] && cmp -s "$room/out" "$room/expected" && ok || bad "install: ${task%% *} with a bare PATH" "status $status: $(head -c 300 "$room/out" "$room/err")"
done
got bare check "$PWD/examples/damaged.sdf"
[ "$status" = 1 ] && grep -q ':29:1: refused 17' "$room/out" && ok || bad "install: a damaged file" "status $status: $(head -c 300 "$room/err")"
got bare --version
is "install: --version" 0 "$(./capellanote --version)" ""
got bare help
[ "$status" = 0 ] && ! grep -q 'capellanote build' "$room/out" && ok || bad "install: help" "status $status: it lists build, or nothing"
got bare build
is "install: build" 2 "" "unknown command build"
[ -s "$i/moved/share/man/man1/capellanote.1" ] && ok || bad "install: the man page" "it is not there"
ln -s "$i/moved/bin/capellanote" "$i/by-link"
got env -i PATH="$i/few" "$i/by-link" check "$sample"
is "install: by a link" 0 "$sample: accepted, 5 records" ""
got ./capellanote install "$i/moved"
is "install: again" 0 "installed: $i/moved/bin/capellanote" ""
got bare check "$sample"
is "install: again, and it runs" 0 "$sample: accepted, 5 records" ""
(cd "$i" && "$OLDPWD/capellanote" install relative) >"$room/out" 2>"$room/err"
status=$?
is "install: a relative folder" 0 "installed: $i/relative/bin/capellanote" ""

# Two installs at once; one that is stopped leaves what stood there, and nothing beside it.
./capellanote install "$i/both" >"$room/first" 2>&1 &
first=$!
got ./capellanote install "$i/both"
is "install: two at once" 0 "installed: $i/both/bin/capellanote" ""
wait "$first" && ok || bad "install: two at once" "the other: $(cat "$room/first")"
mkdir "$i/slow"
printf '#!/bin/sh\nsleep 2\nexec %s "$@"\n' "$(command -v cp)" >"$i/slow/cp"
chmod +x "$i/slow/cp"
PATH=$i/slow:$PATH ./capellanote install "$i/both" >"$room/first" 2>&1 &
first=$!
for _ in $(seq 1 100); do
    [ -z "$(ls -d "$i"/both/lib/capellanote.*/new 2>/dev/null)" ] || break
    sleep 0.1
done
kill -s TERM "$first"
wait "$first"
[ "$?" = 143 ] && ok || bad "install: stopped" "another status: $(cat "$room/first")"
[ "$(ls "$i/both/lib" "$i/both/lib/capellanote")" = "$(ls "$i/moved/lib" "$i/moved/lib/capellanote" | sed "s,$i/moved,$i/both,")" ] && ok || bad "install: at once and stopped" "$(ls "$i/both/lib" "$i/both/lib/capellanote")"
got env -i PATH="$i/few" "$i/both/bin/capellanote" check "$sample"
is "install: at once and stopped, and it runs" 0 "$sample: accepted, 5 records" ""
rm "$i/moved/lib/capellanote/bin/check_files"
got bare check "$sample"
is "install: a program is missing" 2 "" "install capellanote again"
[ -z "$(ls -A "$i/tmp" | grep capellanote)" ] && ok || bad "install: temporary files" "left behind: $(ls -A "$i/tmp")"
