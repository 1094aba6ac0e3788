usage="[--progress] A B"
about="whether two files have the same reading; if not, the first record that differs"
options="--progress"
takes="two files" fewest=2 most=2
programs="records"
place=80

explain() {
    cat <<'END'
Line ends, spaces and columns that are not read are no differences.
Status: 0 the same reading; 1 not the same; 2 a file is refused or cannot be read.
END
}

# The program announces the verdict on each file, and then what they are to each other, a line each.
verb() { # FIRST SECOND
    settle "$@"
    eval "run records same \${option_progress:+--progress} $list"
    told=0
    while IFS= read -r line; do told=$((told + 1)) verdict=$line; done <"$room/verdict"
    case $verdict in
    same) status=0 && return ;;
    "differ "*) status=1 && return ;;
    esac
    own_verdict "$told"
    [ "$told" -lt 2 ] || shift
    tell "$1"
    status=2
}
