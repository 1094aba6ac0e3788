. "$here/command/verbs/check.sh"
usage="[--molfile | --sdfile] [--progress] FILE..."
about="the names of the items of files, with how many records have each"
options="--molfile --sdfile --progress"
takes="the names of files" fewest=1
place=45

explain() {
    cat <<'END'
A line a name, in the order in which they first stand in the file: how many records have it, a tab, the name.
Records that are refused are passed over, and standard error says how many they are. A molfile has no items.
256 different names are kept; where there are more, standard error says so.
Status: 0; 1 a record is refused; 2 a file is not read.
END
}

verb() { # FILES...
    to_end=yes only_names=yes option_json= option_strict=
    judge_files "$@"
}
