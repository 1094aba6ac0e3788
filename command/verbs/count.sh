usage="[--molfile | --sdfile] [--progress] [FILE]"
about="count the records of a file, or of standard input"
options="--molfile --sdfile --progress"
takes="one file, or none" fewest=0 most=1
programs="check_files"
place=20

explain() {
    cat <<'END'
One line: `accepted 5` with the number of records, `refused 17 line 29 column 1`, or `record 3 too long`.
A record may take up to 1,048,576 bytes, as for check; for the program `counter`, which stands beside the others and counts
standard input alone, 65,536.
Status: 0 accepted; 1 refused, or a record too long; 2 not read.
END
}

verb() { # [FILE]
    plain "${1:--}"
    kind_of "$path"
    run check_files "$kind" ${option_progress:+--progress} "$path" >/dev/null
    # shellcheck disable=SC2086
    set -- "${1:-standard input}" $verdict
    case ${2:-} in
    accepted) say 'accepted %s\n' "$3" && status=0 ;;
    refused) say 'refused %s line %s column %s\n' "$3" "$4" "$5" && status=1 ;;
    too) say 'record %s too long\n' "$4" && status=1 ;;
    *) tell "$1" ;;
    esac
}
