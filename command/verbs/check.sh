usage="[--all] [--json] [--strict] [--molfile | --sdfile] [--progress] FILE..."
about="judge SDfiles and molfiles"
options="--all --json --strict --molfile --sdfile --progress"
takes="the names of files" fewest=1
programs="check_files"
place=10

explain() {
    cat <<'END'
A file is accepted with the number of its records, or its first refusal is told: line, column and number, the record, what was
expected, the line itself with a mark under the column, and what to ask the supplier for.
--all goes on behind a refused record, after the next line that begins $$$$, tells every refusal, and ends with a tally.
--json writes an object for each refusal, each warning and each file, and goes on as --all does.
Warnings change no verdict; --strict makes status 1 of them. capellanote explain NUMBER says more of a number.
Files whose names end in .mol are molfiles, all others SDfiles; --molfile or --sdfile says so of all of them.
--progress says on standard error how much is read. Several files end with a line of sums.
Status: 0 all accepted; 1 one refused, or a record too long; 2 one not read.
END
}

# The files of one kind, judged by one process, which writes facts of each in the order of their names.
judge_kind() { # KIND FILES...
    wanted=$1 at=0
    shift
    begin_list
    for file in "$@"; do
        at=$((at + 1))
        kind_of "$file"
        [ "$kind" = "$wanted" ] || continue
        plain "$file"
        case $path in
        "$file") add "\"\${$at}\"" ;;
        "./$file") add "\"./\${$at}\"" ;;
        *) add "\"\$room${path#"$room"}\"" ;;
        esac
    done
    end_list
    [ -n "$list" ] || return 0
    pipe "$wanted"
    eval "start \"\$room/verdict.\$wanted\" \"\$room/\$wanted\" check_files \"\$wanted\" \${option_progress:+--progress} \${to_end:+--all} $list"
}

# What is said of the files, in the order of their names, whose kinds it knows as kind_of does. It has a process of its own.
tell_files() { # FILES...
    : >"$room/beside"
    LC_ALL=C
    export LC_ALL
    # shellcheck disable=SC2086
    exec $leash awk -v molfile="$option_molfile" -v sdfile="$option_sdfile" -v json="$option_json" -v all="$to_end" -v strict="$option_strict" \
        -v names="${only_names:-}" -f "$here/command/tell.awk" "$room" "$@"
}

# The files of both kinds in one run.
judge_files() { # FILES...
    dashes=0
    for file in "$@"; do [ "$file" != - ] || dashes=$((dashes + 1)); done
    [ "$dashes" -lt 2 ] || misused "standard input can be read once, and - stands twice"
    judge_kind sdfile "$@"
    judge_kind molfile "$@"
    sieve tell_files "$@"
    cat "$room/beside" >&2
    status=$(cat "$room/status")
}

verb() { # FILES...
    to_end=${option_all}${option_json}
    judge_files "$@"
}
