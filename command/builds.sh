# Programs built by the toolchain: which are there, which are older than their sources, and one build at a time.

locked=

# The crates that programs stand on, they themselves last, in the order in which the toolchain proves them.
crates_of() { # PROGRAM...
    awk -v wanted="$*" '
        function visit(n,    a, k, m) {
            if (n in seen) return
            seen[n] = 1
            m = split(on[n], a, " ")
            for (k = 1; k <= m; k++) if (a[k] in on) visit(a[k])
            print n
        }
        { sub(/#.*/, "") }
        /:/ { i = index($0, ":"); split(substr($0, 1, i - 1), head, " "); on[head[1]] = substr($0, i + 1) }
        END { m = split(wanted, w, " "); for (k = 1; k <= m; k++) visit(w[k]) }' "$here/crates.txt"
}

# A source that is newer than the program and than the start of its last build, if there is one.
newer_source() { # PROGRAM
    mark=$here/target/built/$1
    [ -e "$mark" ] || mark=$here/target/bin/$1
    (
        cd "$here/crates" || exit
        set -- "$1" ../crates.txt
        for name in $(crates_of "$1"); do
            for part in src specs proofs; do [ ! -d "$name/$part" ] || set -- "$@" "$name/$part"; done
        done
        program=$1
        shift
        find "$@" -newer "$here/target/bin/$program" -newer "$mark" -print
    ) | head -n 1
}

# Why a program has to be built, in $why; empty where it can run.
why_built() { # PROGRAM
    why=
    if [ ! -x "$here/target/bin/$1" ]; then
        why="$1 is not built yet"
        return
    fi
    newer=$(newer_source "$1")
    case $newer in
    "") ;;
    ../*) why="$1 is older than its sources (${newer#../})" ;;
    *) why="$1 is older than its sources (crates/$newer)" ;;
    esac
}

# The programs that a verb runs: there, and newer than their sources.
need() { # PROGRAM...
    [ $# -gt 0 ] || return 0
    find_loader
    if [ -d "$here/run" ]; then
        for program in "$@"; do
            [ -x "$bin/$program" ] || die "the program $program is missing in $bin; install capellanote again"
        done
        return
    fi
    wanted=
    for program in "$@"; do
        why_built "$program"
        [ -z "$why" ] || { printf 'capellanote: %s\n' "$why" >&2 && wanted="$wanted $program"; }
    done
    # shellcheck disable=SC2086
    [ -z "$wanted" ] || build $wanted
}

# ---- One build

unlock() {
    [ -z "$locked" ] || rm -rf "$locked"
    locked=
}

# Builds of one folder go one after the other. The lock names its processes, so that a build that was killed does not keep it.
lock() {
    building=$here/target/building
    if ! mkdir "$building" 2>/dev/null; then
        holder=$(cat "$building/process" 2>/dev/null)
        for process in ${holder:-/}; do
            if [ "$process" = / ] || kill -0 "$process" 2>/dev/null || [ -d "/proc/$process" ]; then
                die "another build is under way here (process ${process#/}): try again when it has ended; if there is none, remove $building"
            fi
        done
        printf 'capellanote: the last build was cut off; this one goes on where it stopped\n' >&2
        rm -rf "$building"
        mkdir "$building" || die "another build has just begun here: try again when it has ended"
    fi
    locked=$building
    echo $$ >"$building/process"
}

# While the toolchain works: the crate that is being proved, whenever that is another one. Crates that are proved already are passed over.
follow() { # LOG
    shown=
    while [ ! -e "$room/ended" ] && kill -0 "$running" 2>/dev/null; do
        name=$(sed -n 's/^rt: chose --jobs [0-9]* for //p' "$1" | tail -n 1)
        if [ "$name" != "$shown" ]; then
            printf 'capellanote: proving %s of %s: %s\n' "$(grep -nx -- "$name" "$room/plan" | cut -d : -f 1)" "$total" "$name" >&2
            shown=$name
        fi
        sleep 1
    done
}

# Proves a program with what it stands on, and puts it into target/bin. rt runs it then, with no words and nothing on its standard input.
make() { # PROGRAM
    (cd "$here/crates/$1" && rt run)
    grep -q "^rt: running out/$1;" "$log" || return
    cp "$here/crates/$1/out/$1" "$here/target/bin/$1.new" && mv -f "$here/target/bin/$1.new" "$here/target/bin/$1"
}

build() { # PROGRAM...
    mkdir -p "$here/target/built" "$here/target/bin" 2>/dev/null && [ -w "$here/target" ] && [ -w "$here/target/built" ] && [ -w "$here/target/bin" ] ||
        die "$here/target may not be written by you: have its owner run \`capellanote build\`, or copy the repository to a folder of yours"
    make_room
    lock
    crates_of "$@" >"$room/plan"
    total=$(($(wc -l <"$room/plan")))
    printf 'capellanote: building %s: %s crates are proved first, which takes minutes where nothing is proved yet\n' "$*" "$total" >&2
    for program in "$@"; do
        : >"$here/target/built/$program.new" # now, before any source is read
    done
    log=$here/target/build.log
    : >"$log"
    (
        made=0
        for program in "$@"; do make "$program" || { made=1 && break; }; done
        echo "$made" >"$room/ended"
    ) >"$log" 2>&1 3>/dev/null 7<&- </dev/null &
    running=$!
    echo "$running" >>"$building/process"
    follow "$log"
    wait "$running"
    running=
    if [ "$(cat "$room/ended" 2>/dev/null)" != 0 ]; then
        tail -n 5 "$log" >&2
        die "$* not built; $log has the whole"
    fi
    for program in "$@"; do
        touch -r "$here/target/built/$program.new" "$here/target/bin/$program" # a source that changed meanwhile is newer
        mv -f "$here/target/built/$program.new" "$here/target/built/$program"
    done
    unlock
}
