# Formulas against structures: agreement, differences, each refusal, refused files and files that cannot be read. Sourced by tests/run.

# A record of atoms without bonds, and its items.
formula_record() { # ATOMS ITEMS
    printf 'AB-00417\n\n\n%3d  0  0  0  0  0  0  0  0  0999 V2000\n' "$(set -- $1; echo $#)"
    for symbol in $1; do
        printf '    0.0000    0.0000    0.0000 %-3s 0  0  0  0  0  0  0  0  0  0  0  0\n' "$symbol"
    done
    printf 'M  END\n%s$$$$\n' "$2"
}

formula_item() { # NAME LINES...
    printf '>  <%s>\n' "$1"
    shift
    [ $# = 0 ] || printf '%s\n' "$@"
    printf '\n.'
}

formula_of() { # ATOMS NAME LINES...
    local atoms=$1 item
    shift
    item=$(formula_item "$@")
    formula_record "$atoms" "${item%.}"
}

file=$room/formula.sdf
says_formula() { # CASE STATUS LINE ATOMS NAME LINES...
    local name=$1 status_is=$2 line=$3
    shift 3
    formula_of "$@" >"$file"
    got ./capellanote formula "$file"
    is "formula: $name" "$status_is" "{\"record\":1,$line}" ""
}

says_formula "agrees" 0 '"differs":[]' "C O" FORMULA CO
says_formula "cobalt" 1 '"differs":[[6,"C",0,1],[8,"O",0,1],[27,"Co",1,0]]' "C O" FORMULA Co
says_formula "a group, hydrogen not drawn" 0 '"differs":[]' "Ca O O" FORMULA "Ca(OH)2"
says_formula "only the first line" 0 '"differs":[]' "C O" FORMULA CO C6
says_formula "as the request shows it" 1 '"differs":[[6,"C",5,6]]' "C C C C C C" FORMULA C5
says_formula "multiplied out" 1 '"differs":[[5,"B",3,1],[30,"Zn",1,0],[92,"U",2,1],[118,"Og",4,1]]' "U Og B" FORMULA "B3(UOg2)2Zn"
says_formula "the most" 1 '"differs":[[6,"C",9999,1]]' "C" FORMULA "(C999)10C9"
says_formula "no item" 1 '"refused":22' "C" LOT C
says_formula "no value line" 1 '"refused":31' "C" FORMULA
says_formula "a blank" 1 '"refused":31' "C" FORMULA "C H4"
says_formula "a count of one" 1 '"refused":31' "C" FORMULA C1
says_formula "no element" 1 '"refused":31' "A" FORMULA A
says_formula "depth 8" 0 '"differs":[]' "C" FORMULA "((((((((C))))))))"
says_formula "depth 9" 1 '"refused":32' "C" FORMULA "(((((((((C)))))))))"
says_formula "depth 9, but no formula" 1 '"refused":31' "C" FORMULA "(((((((((C1)))))))))"
says_formula "hydrogen above 9,999" 1 '"refused":33' "C" FORMULA "(H100)100C"
says_formula "999 to the ninth" 1 '"refused":33' "A" FORMULA "((((((((U999)999)999)999)999)999)999)999)999"
says_formula "not comparable" 1 '"refused":34' "C LP" FORMULA C

# Records one after the other, and CR LF.
{ formula_of "C O" FORMULA CO; formula_of "C" FORMULA x; formula_of "N" FORMULA N2; } | sed 's/$/\r/' >"$file"
got ./capellanote formula "$file"
is "formula: three records" 1 '{"record":1,"differs":[]}
{"record":2,"refused":31}
{"record":3,"differs":[[7,"N",2,1]]}' ""

# More than one buffer of them: the same line for each.
{ formula_of "C O" FORMULA CO; } >"$room/one.sdf"
for k in 1 2 3 4 5 6 7 8 9 10 11 12 13; do
    cat "$room/one.sdf" "$room/one.sdf" >"$room/two.sdf"
    mv "$room/two.sdf" "$room/one.sdf"
done
got ./capellanote formula "$room/one.sdf"
[ "$status" = 0 ] && [ "$(grep -c '"differs":\[\]}$' "$room/out")" = 8192 ] && [ "$(tail -n 1 "$room/out")" = '{"record":8192,"differs":[]}' ] && ok || bad "formula: 8,192 records" "status $status"

: >"$room/none.sdf"
got ./capellanote formula "$room/none.sdf"
is "formula: no record" 0 "" ""
got ./capellanote formula examples/damaged.sdf
is "formula: a refused file" 1 "" "refused 17"
got ./capellanote formula "$room/nowhere"
is "formula: no file" 2 "" "nowhere"
got ./capellanote formula
is "formula: no name" 2 "" "formula takes one file"
