usage="[--json] [--molfile | --sdfile] [-o FILE] OLD NEW"
about="what differs between two files, record by record"
options="--json --molfile --sdfile -o="
takes="two files" fewest=2 most=2
programs="records"
place=81

explain() {
    cat <<'END'
One line a difference, with both figures or texts, and a summary; with --json one object a line. Line ends, spaces in item headers and columns
that are not read are no differences. Atoms and bonds are compared up to the smaller count; an item or record on one side only is listed once.
Status, as diff has it: 0 the same; 1 different; 2 a file is refused or cannot be read, and then no difference is written.
END
}

# The program announces the verdict on each file, and then what they are to each other, a line each.
verb() { # OLD NEW
    settle "$@"
    eval "run records compare \${option_json:+--json} $list"
    told=0
    while IFS= read -r line; do told=$((told + 1)) verdict=$line; done <"$room/verdict"
    case $verdict in
    same) status=0 && return ;;
    "differ "*) status=1 whole=yes && return ;;
    esac
    own_verdict "$told"
    [ "$told" -lt 2 ] || shift
    tell "$1"
    status=2
}
