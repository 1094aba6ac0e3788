usage="[--molfile | --sdfile] [--progress] [-o FILE] FILE"
about="the pieces of every record and each atom's lowest, as JSON"
options="--molfile --sdfile --progress -o="
takes="one file" fewest=1 most=1
programs="records"
place=60

explain() {
    cat <<'END'
A line a record: {"record":1,"pieces":[[1,2],[3,1]],"atoms":[1,1,3]}: each piece as its lowest atom and how many atoms it has,
then for each atom the lowest of its piece.
Nothing of a refused file is written. With -o the output goes to FILE, which appears when it is complete.
END
}

verb() { # FILE
    kind_of "$1"
    twice "$1"
    run records pieces "$kind" ${option_progress:+--progress} "$path"
    tell "$1"
}
