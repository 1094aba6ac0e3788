usage="[--molfile | --sdfile] [--progress] [-o FILE] FILE"
about="the FORMULA item of every record against its atoms, as JSON"
options="--molfile --sdfile --progress -o="
takes="one file" fewest=1 most=1
programs="records"
place=70

explain() {
    cat <<'END'
A line a record: {"record":1,"differs":[[6,"C",5,6]]}: element by number and symbol, as the formula says and as it is drawn;
or {"record":1,"refused":31} where there is nothing to compare (22 no such item, 31 no formula, 32 nested above 8 deep,
33 more than 9,999 atoms of an element, 34 an atom that is no element).
Nothing of a refused file is written. Status: 0 every record agrees; 1 one does not, or the file is refused; 2 not read.
END
}

# Where records do not agree, the verdict has the number 0 and how many they are.
verb() { # FILE
    settle "$1"
    eval "run records formula \${option_progress:+--progress} $list"
    own_verdict 1
    case $verdict in
    "refused 0 "*) status=1 whole=yes ;;
    *) tell "$1" ;;
    esac
}
