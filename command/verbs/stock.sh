usage="[--supplier NAME] [--lot NAME] [--pad BYTE] [--json] [--molfile | --sdfile] [-o FILE] LOG FILE..."
about="a scanner log against the catalogue, lot by lot"
options="--supplier= --lot= --pad= --json --molfile --sdfile -o="
takes="a log and the names of files" fewest=2
programs="records"
place=95

explain() {
    cat <<'END'
A line a lot of the store after the log: supplier, lot, paper, last count and paper minus shelf then, records of the catalogue with
its key; lots whose last count differs and lots without a record are marked. Then the records whose lot was never received, then those
without a key, with file and number, then totals. --json: the same as JSON, one object a line.
The key of a record is the first value line of its first item SUPPLIER and of its first item LOT (--supplier and --lot give other names),
byte for byte, filled on the right to 4 and 8 bytes with the pad byte: a space, or what --pad says. Nothing is trimmed: 00417 and 417 never meet.
A text that is missing, longer, or ends in the pad byte makes no key.
--pad takes a number from 0 to 255, as 0 or 32, or one character that is no digit.
Of a refused file nothing is counted; of a refused log what stands before the refusal is.
Status: 0 every lot has a record, every record its lot, and no last count differs; 1 otherwise, or the log or a file is refused;
2 one is not read.
END
}

# The pad byte as a number, in $pad.
pad_of() { # TEXT
    case $1 in
    "") pad=32 ;;
    [0-9] | [1-9][0-9] | 1[0-9][0-9] | 2[0-4][0-9] | 25[0-5]) pad=$1 ;;
    *)
        pad=$(printf '%s' "$1" | LC_ALL=C tr -d '\n\r\t' | LC_ALL=C od -An -tu1 | tr -d '\n')
        # shellcheck disable=SC2086
        set -- "$1" $pad
        [ $# = 2 ] && [ "$2" -ge 32 ] && [ "$2" -le 126 ] || misused "--pad takes a number from 0 to 255, or one character"
        pad=$2
        ;;
    esac
}

# What the program says of the log, in the words of replay.
tell_log() { # LOG
    case $verdict in
    "refused "*)
        # shellcheck disable=SC2086
        set -- "$1" $verdict
        printf '%s: event %s: refused %s: %s\n' "$1" "$4" "$3" "$(sentence "$3" 0)" >&2
        status=1
        ;;
    *) tell "$1" ;;
    esac
}

# A verdict line for the log, one for each file, and then what failed later, or whether the store is as it should be.
tell_all() { # LOG FILES...
    exec 8<"$room/verdict"
    verdict=
    IFS= read -r verdict <&8 || :
    tell_log "$1"
    worst=$status
    shift
    [ "$worst" -lt 2 ] || return 0 # the log was not read, so no file was
    at=0
    for file in "$@"; do
        verdict= at=$((at + 1))
        IFS= read -r verdict <&8 || :
        own_verdict "$at"
        tell "$file"
        [ "$status" -le "$worst" ] || worst=$status
    done
    verdict=
    while IFS= read -r verdict <&8; do
        case $verdict in settled) ;; unsettled) [ "$worst" -gt 0 ] || worst=1 ;; *) worst=2 ;; esac
    done
}

verb() { # LOG FILES...
    pad_of "$option_pad"
    mode=table
    [ -z "$option_json" ] || mode=json
    twice "$1"
    log=$1 log_path=$path
    shift
    paired=yes
    settle "$@"
    eval "run records stock \"\$mode\" \"\${option_supplier:-SUPPLIER}\" \"\${option_lot:-LOT}\" \"\$pad\" \"\$log_path\" $list"
    tell_all "$log" "$@"
    status=$worst
    [ "$status" -gt 1 ] || whole=yes
}
