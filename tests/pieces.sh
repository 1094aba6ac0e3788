# The pieces of records: chains in any order of bonds, lone atoms, no atoms, full records, either kind of file, nothing of a refused one. Sourced by tests/run.

# A molecule of so many carbon atoms with these bonds, each as FIRST-SECOND.
molecule() { # ATOMS BONDS...
    local n=$1
    shift
    awk -v n="$n" -v bonds="$*" 'BEGIN {
        m = split(bonds, b, " ")
        printf "\n\n\n%3d%3d%33s\n", n, m, "V2000"
        for (i = 1; i <= n; i++) print "    0.0000    0.0000    0.0000 C"
        for (k = 1; k <= m; k++) { split(b[k], e, "-"); printf "%3d%3d%3d\n", e[1], e[2], k % 3 + 1 }
        print "M  END"
    }'
}

pieces_of() { # CASE EXPECTED FILE [OPTION]
    got ./capellanote pieces ${4:+"$4"} "$3"
    is "pieces: $1" 0 "$2" ""
}

full=$(sed -n 's/^#define CAPELLANOTE_LIMIT //p' include/capellanote.h)
ring=$(awk -v n="$full" 'BEGIN { for (i = 1; i <= n; i++) printf " %d-%d", i, i % n + 1 }')
{
    molecule 5 1-2 4-5
    echo '$$$$'
    molecule 7 6-7 5-6 3-7 3-1
    echo '$$$$'
    molecule 3
    printf '>  <LOT>\n00417\n\n$$$$\n'
    molecule 0
    echo '$$$$'
    molecule 6 1-6 2-5 3-4 4-5 6-3
    echo '$$$$'
} >"$room/pieces.sdf"
pieces_of "five records" '{"record":1,"pieces":[[1,2],[3,1],[4,2]],"atoms":[1,1,3,4,4]}
{"record":2,"pieces":[[1,5],[2,1],[4,1]],"atoms":[1,2,1,4,1,1,1]}
{"record":3,"pieces":[[1,1],[2,1],[3,1]],"atoms":[1,2,3]}
{"record":4,"pieces":[],"atoms":[]}
{"record":5,"pieces":[[1,6]],"atoms":[1,1,1,1,1,1]}' "$room/pieces.sdf"

molecule 4 2-4 >"$room/pieces.mol"
pieces_of "a molfile" '{"record":1,"pieces":[[1,1],[2,2],[3,1]],"atoms":[1,2,3,2]}' "$room/pieces.mol" --molfile

# As many atoms as a record may have: in one ring, and without bonds.
{
    # shellcheck disable=SC2086
    molecule "$full" $ring
    echo '$$$$'
    molecule "$full"
    echo '$$$$'
} >"$room/full.sdf"
pieces_of "full records" "$(awk -v n="$full" 'BEGIN {
    printf "{\"record\":1,\"pieces\":[[1,%d]],\"atoms\":[", n
    for (i = 1; i <= n; i++) printf "%s1", i == 1 ? "" : ","
    printf "]}\n{\"record\":2,\"pieces\":["
    for (i = 1; i <= n; i++) printf "%s[%d,1]", i == 1 ? "" : ",", i
    printf "],\"atoms\":["
    for (i = 1; i <= n; i++) printf "%s%d", i == 1 ? "" : ",", i
    printf "]}\n"
}')" "$room/full.sdf"

# Nothing of a refused file.
{
    cat "$room/pieces.sdf"
    molecule 2 1-1
    echo '$$$$'
} >"$room/bent.sdf"
got ./capellanote pieces "$room/bent.sdf"
is "pieces: a refused file" 1 "" "refused 10"
got ./capellanote pieces
is "pieces: no file" 2 "" "pieces takes one file"
