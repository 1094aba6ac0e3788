usage="[--molfile | --sdfile] [--progress] [-o FILE] FILE"
about="every record as JSON, one object a line"
options="--molfile --sdfile --progress -o="
takes="one file" fewest=1 most=1
programs="records"
place=30

explain() {
    cat <<'END'
A line a record: {"record":1,"line":1,"bytes":265,"header":[..],"chiral":0,"atoms":[[..]..],"bonds":[[..]..],"items":[..]}.
docs/GUIDE.md says what each field is. Codes are strings and keep their zeros.
Nothing of a refused file is written. With -o the output goes to FILE, which appears when it is complete.
END
}

verb() { # FILE
    kind_of "$1"
    twice "$1"
    run records read "$kind" ${option_progress:+--progress} "$path"
    tell "$1"
}
