# Running a program: where it and its loader are, its verdict, its files, and what becomes of it when the command is stopped.

room= running= filter= temporary= staged= leash=

# ---- Ends

# What the command leaves behind, whichever way it ends: nothing.
clean_up() {
    for process in $running $filter; do kill_tree "$process"; done
    [ -z "$temporary" ] || rm -f "$temporary"
    [ -z "$room" ] || rm -rf "$room"
    [ -z "$staged" ] || rm -rf "$staged"
    unlock
}

# A process and all that it started.
kill_tree() { # PROCESS
    kill -s TERM $(ps -A -o pid= -o ppid= 2>/dev/null | awk -v top="$1" '
        { up[$1] = $2 }
        END { for (p in up) { q = p; while (q in up && q != top && q > 1) q = up[q]; if (q == top) print p } }') "$1" 2>/dev/null
}

# A signal stops the program, too; then the command ends by the same signal, so that its caller sees it.
stopped() { # SIGNAL
    trap - EXIT "$1"
    [ -z "$locked" ] || printf 'capellanote: the build was stopped; call it again, and it goes on from there\n' >&2
    clean_up
    kill -s "$1" $$
    [ "$1" != PIPE ] || printf 'standard output: Broken pipe\n' >&2 # where signals of pipes are not heard
    exit 2
}

trap clean_up EXIT
trap 'stopped HUP' HUP
trap 'stopped INT' INT
trap 'stopped TERM' TERM
trap 'stopped PIPE' PIPE

# Nothing more can be written to standard output.
unwritten() {
    die "standard output: ${1:-cannot be written; is the disk full?}"
}

say() { # FORMAT WORDS...
    # shellcheck disable=SC2059
    printf "$@" 2>/dev/null || unwritten
}

# ---- Room

make_room() {
    [ -z "$room" ] || return 0
    room=$(umask 077 && mktemp -d "${TMPDIR:-/tmp}/capellanote.XXXXXX" 2>/dev/null) && echo room 2>/dev/null >"$room/room" ||
        die "no temporary folder can be made in ${TMPDIR:-/tmp}: set TMPDIR to a folder with room"
    case $room in /*) ;; *) room=$PWD/$room ;; esac
}

# What was to be kept there was not.
no_room() {
    die "${TMPDIR:-/tmp} has no room for $1: set TMPDIR to a folder with room"
}

# With -o the output goes to a file beside the one asked for, which takes its place once it is complete. - is standard output.
open_output() {
    target=$option_o
    case $target in
    "" | - | /dev/stdout) return 0 ;;
    -*) target=./$target ;;
    /dev/stderr | /dev/fd/* | /proc/self/fd/*)
        exec >>"$target" # a descriptor, whatever stands behind it
        return
        ;;
    esac
    if [ -d "$target" ]; then die "$option_o: is a directory"; fi
    if [ -e "$target" ] && [ ! -f "$target" ]; then
        exec >"$target"
        return
    fi
    [ ! -L "$target" ] || target=$(resolved "$target")
    [ ! -L "$target" ] || die "$option_o: a link that leads back to itself; name another file"
    if [ -e "$target" ] && [ ! -w "$target" ]; then die "$option_o: may not be written by you; name another file"; fi
    temporary=$(mktemp "$(dirname "$target")/.capellanote.XXXXXX" 2>/dev/null) ||
        { temporary= && die "$option_o: cannot be written there; name a file in a folder of yours"; }
    like_target
    exec >"$temporary"
}

# The mode and the owner of what stood there; else the mode of any new file.
like_target() {
    if [ -e "$target" ] && mode=$(stat -c %a "$target" 2>/dev/null); then
        chown "$(stat -c %u:%g "$target")" "$temporary" 2>/dev/null || :
    else
        mode=$(printf '%o' $((0666 & ~$(umask))))
    fi
    chmod "$mode" "$temporary"
}

close_output() {
    [ -n "$temporary" ] || return 0
    if [ "$status" = 0 ] || [ -n "$whole" ]; then
        mv -f "$temporary" "$target" 2>/dev/null || die "$option_o: cannot be written"
        temporary=
    fi
}

# ---- Programs

# The folders of programs and of what runs them: beside the command where it was installed; else target/bin, and the toolchain's.
find_loader() {
    if [ -d "$here/run" ]; then
        bin=$here/bin libs=$here/run emulator=$here/run/qemu-x86_64
    else
        rt=$(command -v rt) || die "the Rattle toolchain is not there: no command rt in the PATH"
        kit=${RATTLE_HOME:-$(dirname "$(dirname "$(resolved "$rt")")")}
        tools=$kit/toolchain
        bin=$here/target/bin libs=$tools/lib emulator=$tools/bin/qemu-x86_64
    fi
    loader=$libs/ld-linux-x86-64.so.2
    leash= # where it is there: the program ends even with a command that is killed outright
    if setpriv --pdeathsig TERM true 2>/dev/null; then leash="setpriv --pdeathsig TERM"; fi
    [ -x "$emulator" ] || emulator=
    [ -e "$loader" ] || die "$libs has no loader for this machine"
}

launch() { # PROGRAM WORDS...
    program=$1
    shift
    # shellcheck disable=SC2086
    exec $leash ${emulator:+"$emulator"} "$loader" --library-path "$libs" "$bin/$program" "$@"
}

# Starts a program beside the command: its verdict lines to one file, its output to another, or to standard output if that is "".
start() { # VERDICTS OUTPUT PROGRAM WORDS...
    verdicts=$1 into=$2 program=$3
    shift 2
    if [ -n "$into" ]; then
        launch "$@" <&7 >"$into" 3>"$verdicts" 7<&- &
    else
        launch "$@" <&7 3>"$verdicts" 7<&- &
    fi
    running="$running $!"
}

# Waits for the programs started. One that ends with another status than 0 has said nothing.
await() {
    for process in $running; do
        wait "$process"
        ended=$?
        case $ended in
        0) ;;
        141) stopped PIPE ;; # whoever read the output has stopped reading
        132 | 135 | 136 | 139) broken ;; # an instruction or a place that is none: no whole program comes to one
        *)
            [ "$ended" -lt 129 ] || die "the program $program was ended by signal $((ended - 128)), so its output is not whole"
            broken
            ;;
        esac
    done
    running=
}

# A pipe to write to and to read from by its name, "$room/NAME".
pipe() { # NAME
    [ -p "$room/$1" ] || mkfifo "$room/$1" || die "no pipe can be made in ${TMPDIR:-/tmp}"
}

# A filter that reads from such pipes what the programs started write, and writes to standard output; then waits for all. What it writes goes
# through cat, whose status tells whether it was written: that of awk does not on every machine.
sieve() { # COMMAND WORDS...
    pipe sifted
    "$@" >"$room/sifted" 2>"$room/said" &
    filter=$!
    # shellcheck disable=SC2086
    $leash cat <"$room/sifted" 2>"$room/unwritten" &
    writer=$!
    filter="$filter $writer"
    wait "$writer"
    written=$?
    case $written in
    0) ;;
    141) stopped PIPE ;;
    *)
        if grep -q 'No space left' "$room/unwritten"; then unwritten "No space left on device"; fi
        unwritten
        ;;
    esac
    wait "${filter% *}"
    sifted=$?
    filter=
    [ "$sifted" = 0 ] || die "$(cat "$room/said") (status $sifted), so what is written is not whole"
    await
}

# A program that broke down: it is not whole, or it has less stack than it needs.
broken() {
    case $ended in 132 | 135 | 136 | 139) how="signal $((ended - 128)); or \`ulimit -s\` gives less than 8192" ;; *) how="status $ended" ;; esac
    if [ -d "$here/run" ]; then
        die "the program $program is broken ($how); install capellanote again"
    fi
    die "the program $program is broken ($how); build it anew: capellanote build"
}

# Runs a program to its end; its first verdict line is left in $verdict.
run() { # PROGRAM WORDS...
    start "$room/verdict" "" "$@"
    await
    verdict=
    IFS= read -r verdict <"$room/verdict" || :
}

# ---- Names of files

# A name that no program takes for an option, in $path. Programs open names that are UTF-8, so a file with another is handed to them by a link.
plain() { # FILE
    case $1 in
    -) path=- ;;
    -*) path=./$1 ;;
    *) path=$1 ;;
    esac
    case $1 in *[!$ascii]*) [ ! -f "$1" ] || linked "$1" ;; esac
}

ascii=$(printf '\001-\177') links=0

# A link to a file whose name is no UTF-8, in $path.
linked() { # FILE
    # shellcheck disable=SC1003
    name=$path LC_ALL=C awk 'BEGIN { exit ENVIRON["name"] ~ /^([\001-\177]|[\302-\337][\200-\277]|\340[\240-\277][\200-\277]|[\341-\354\356\357][\200-\277][\200-\277]|\355[\200-\237][\200-\277]|\360[\220-\277][\200-\277][\200-\277]|[\361-\363][\200-\277][\200-\277][\200-\277]|\364[\200-\217][\200-\277][\200-\277])*$/ }' || return 0
    links=$((links + 1))
    mkdir -p "$room/links" || return 0
    link=$room/links/$links
    case $1 in *.[mM][oO][lL]) link=$link.mol ;; esac
    case $path in /*) leads_to=$path ;; *) leads_to=$PWD/$path ;; esac
    ln -s "$leads_to" "$link" 2>/dev/null && path=$link
    return 0
}

# A file that is read twice: what comes once, standard input and pipes, is copied first. The copying has a process of its own, so that
# a signal stops the command while nothing comes.
copies=0
twice() { # FILE
    plain "$1"
    case $1 in -) ;; *) [ -p "$1" ] || return 0 ;; esac
    copies=$((copies + 1)) shown=$1 from=$path
    mkdir "$room/$copies"
    path="$room/$copies/standard input"
    # shellcheck disable=SC2086
    if [ "$1" = - ]; then
        [ -z "${spooled:-}" ] || misused "standard input can be read once, and - stands twice"
        spooled=yes shown="standard input"
        $leash cat <&7 >"$path" &
    else
        $leash cat "$from" <&7 >"$path" & # with the command's own standard input, which the name may be, too
    fi
    running=$!
    wait "$running" || die "$shown was not copied to ${TMPDIR:-/tmp}, so it cannot be read twice: set TMPDIR to a folder with room"
    running=
}

# Words for `eval`, one by one into $list; a long list grows by parts, for a string that grows is copied each time.
begin_list() { list= part= added=0; }

add() { # WORD
    part="$part $1" added=$((added + 1))
    if [ "$added" = 400 ]; then list=$list$part part= added=0; fi
}

end_list() { list=$list$part; }

# The files of a verb whose program reads SDfiles, twice: the words for them in $list, for `eval`; with $paired each with its name behind it.
# A good molfile is an SDfile's record without items and without its last line, so the program is handed a copy with that line.
paired=
settle() { # FILES...
    begin_list
    at=0
    mkdir "$room/molfiles"
    for file in "$@"; do
        at=$((at + 1))
        kind_of "$file"
        twice "$file"
        if [ "$kind" = molfile ] && [ -f "$path" ] && [ -r "$path" ]; then
            head -c 2097152 <"$path" >"$room/molfiles/$at" || no_room "a copy of $file" # a longer one is refused within these bytes
            path=$room/molfiles/$at
        fi
        case $path in
        "$file") add "\"\${$at}\"" ;;
        "./$file") add "\"./\${$at}\"" ;;
        *) add "\"\$room${path#"$room"}\"" ;;
        esac
        [ -z "$paired" ] || add "\"\${$at}\""
    done
    end_list
    rmdir "$room/molfiles" 2>/dev/null || judge_molfiles "$room/molfiles"/*
}

# Copies of molfiles are judged as what they are, all by one process. In the place of a refused one the program sees a text that is refused, too.
judge_molfiles() { # COPIES...
    need check_files
    start "$room/judged" /dev/null check_files molfile "$@"
    await
    exec 8<"$room/judged"
    for copy in "$@"; do
        verdict=
        IFS= read -r verdict <&8
        case $verdict in
        "accepted "*) echo '$$$$' >>"$copy" || no_room "a copy of a molfile" ;;
        *)
            printf '%s\n' "$verdict" >"$room/verdict.molfile.${copy##*/}"
            printf x >"$copy"
            ;;
        esac
    done
    exec 8<&-
}

# The verdict on the file of this place: of a refused molfile its own.
own_verdict() { # PLACE
    [ ! -f "$room/verdict.molfile.$1" ] || IFS= read -r verdict <"$room/verdict.molfile.$1"
}
