usage="[--last OLD.sdf] [--log LOG] [--title TEXT] -o REPORT.html FILE..."
about="a delivery on one page of HTML, to look at, print and send"
options="--last= --log= --title= -o="
takes="the names of files" fewest=1
programs="check_files records"
place=120

explain() {
    cat <<'END'
One page that stands by itself: the verdict, every refused record, warnings, bottles per supplier; with --last what changed since that
delivery (which goes with one file), with --log the lots of a scanner log against this delivery. Its figures are those of check --all,
compare, tally and stock with --json, and its foot says how to get them. Tables show 1,000 rows at most and say how many there are.
It needs Python 3, and nothing beside it.
Status: 0 nothing to object to; 1 a record is refused or a lot differs; 2 a file is not read, and the page was not written.
END
}

verb() { # FILES...
    command -v python3 >/dev/null 2>&1 || die "report needs python3, which is not in the PATH; check --all, compare, tally and stock say the same without it"
    [ -n "$option_o" ] || misused "report takes -o REPORT.html"
    list_files "$@"
    eval "make_page $list"
}

# The words for the program: the path and the name of each file, the last delivery and the log first, which may be missing.
list_files() { # FILES...
    begin_list
    at=0 last_path= log_path=
    if [ -n "$option_last" ]; then twice "$option_last" && last_path=$path; fi
    if [ -n "$option_log" ]; then twice "$option_log" && log_path=$path; fi
    add '"$last_path" "$option_last" "$log_path" "$option_log"'
    for file in "$@"; do
        at=$((at + 1))
        twice "$file"
        case $path in "$room"/*) add "\"\$room${path#"$room"}\" \"\${$at}\"" ;; *) add "\"\${$at}\" \"\${$at}\"" ;; esac
    done
    end_list
}

# The page, by a process of its own, so that a signal stops the command meanwhile. 3 is its status for a page with something to object to:
# 1 is that of a Python that breaks down.
make_page() { # WORDS
    # shellcheck disable=SC2086
    $leash python3 "$here/command/report.py" "$here/capellanote" "$option_title" "$@" <&7 7<&- &
    running=$!
    wait "$running"
    ended=$?
    running=
    case $ended in
    0) status=0 ;;
    3) status=1 whole=yes ;;
    2) status=2 ;; # it has said why
    141) stopped PIPE ;;
    *) die "report.py broke down (status $ended), and no page is written" ;;
    esac
}
