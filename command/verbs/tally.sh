usage="[--json] [--molfile | --sdfile] [-o FILE] FILE..."
about="bottles per supplier: how many records each one sent, over many files"
options="--json --molfile --sdfile -o="
takes="the names of files" fewest=1
programs="records"
place=95

explain() {
    cat <<'END'
A line for each supplier in byte order: how many records have that first value line in their first item SUPPLIER; then those
without one, and the total. With --json an object a line: {"supplier":"AB","count":2}, at the end the sums.
A refused file is told of on standard error and adds nothing; the others still count. 23 to 25 name the record that met them.
Status: 0 all counted; 1 a file refused, or a record too long; 2 one not read.
END
}

# A refusal of a record has its number in the place of the line.
show_tally() { # FILE
    case $verdict in
    "refused 23 "* | "refused 24 "* | "refused 25 "*)
        # shellcheck disable=SC2086
        set -- "$1" $verdict
        printf '%s: record %s: refused %s: %s\n' "$1" "$4" "$3" "$(sentence "$3" 0)" >&2
        status=1
        return
        ;;
    esac
    read_verdict "$1" "$verdict"
    [ -z "$said" ] || printf '%s\n' "$said" >&2
    [ -z "$cause" ] || printf '  hint: %s\n' "$cause" >&2
}

# All files by one process, which writes the report and a verdict line each. The report is kept until it is known to be whole.
tally_files() { # FILES...
    settle "$@"
    eval "start \"\$room/tallied\" \"\$room/report\" records tally \${option_json:+--json} $list"
    await
    case $(tail -n 1 "$room/report") in
    *" total" | '{"missing":'*'}') sieve cat "$room/report" ;;
    *) no_room "the report" ;;
    esac
}

verb() { # FILES...
    tally_files "$@"
    worst=0 at=0
    exec 8<"$room/tallied"
    for file in "$@"; do
        verdict= at=$((at + 1))
        IFS= read -r verdict <&8
        own_verdict "$at"
        show_tally "$file"
        [ "$status" -le "$worst" ] || worst=$status
    done
    status=$worst whole=yes
}
