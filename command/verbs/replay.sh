usage="[-o FILE] LOG"
about="a scanner log: counts, skipped events, lots and sums, as JSON"
options="-o="
takes="one log" fewest=1 most=1
programs="records"
place=90

explain() {
    cat <<'END'
A line for each count and each event that is skipped (28 to 30), then the lots and the sums.
An event that cannot be read ends it (26, 27): the lots and sums up to there are written, and the status is 1.
END
}

# A refusal of a log has the event's number in the place of the line.
verb() { # LOG
    plain "$1"
    run records replay "$path"
    case $verdict in
    "refused "*)
        # shellcheck disable=SC2086
        set -- "$1" $verdict
        printf '%s: event %s: refused %s: %s\n' "$1" "$4" "$3" "$(sentence "$3" 0)" >&2
        status=1 whole=yes
        ;;
    *) tell "$1" ;;
    esac
}
