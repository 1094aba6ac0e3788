usage=""
about="prove the library and build every program, once"
options=""
takes="no words" most=0
place=91

explain() {
    cat <<'END'
Needs the Rattle toolchain (rt in the PATH). It says which crate of how many is being proved; what is proved already, and
unchanged, is not proved again, so a build that was cut off goes on where it stopped.
Verbs build what they need by themselves at their first use, and where a program is older than its sources.
Status: 0 every program is there and runs; 2 not.
END
}

# The programs of this repository: the crates with a main file.
all_programs() {
    crates_of "$(sed -n 's/^\([a-z_0-9]*\):.*/\1/p' "$here/crates.txt" | tr '\n' ' ')" | while read -r name; do
        [ ! -f "$here/crates/$name/src/main.rt" ] || echo "$name"
    done
}

# Whether a program starts and ends: each does, with no words and nothing on its standard input.
runs() { # PROGRAM
    (launch "$1" </dev/null >/dev/null 2>&1 3>/dev/null 7<&-)
}

build_all() {
    [ ! -d "$here/run" ] || die "this is an installed copy, which is built already; build and install from the repository"
    find_loader
    make_room
    # shellcheck disable=SC2046
    set -- $(all_programs)
    wanted=
    for program in "$@"; do
        why_built "$program"
        if [ -z "$why" ] && ! runs "$program"; then
            why="$program is broken"
            rm -f "$here/target/bin/$program" 2>/dev/null
        fi
        [ -z "$why" ] || { printf 'capellanote: %s\n' "$why" >&2 && wanted="$wanted $program"; }
    done
    # shellcheck disable=SC2086
    [ -z "$wanted" ] || build $wanted
    for program in "$@"; do runs "$program" || die "$program was built and does not run; is this machine served by the toolchain?"; done
}

verb() {
    build_all
    # shellcheck disable=SC2046
    say 'built: %s\n' "$(echo $(all_programs))"
    status=0
}
