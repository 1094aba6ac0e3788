# What is said of files: a sentence for each number, the commonest causes, and what a verdict says.

sentence() { # NUMBER COLUMN
    case $1 in
    1) echo "the kind of file is neither 0, a molfile, nor 1, an SDfile" ;;
    2) echo "the tables lent have room for fewer atoms or bonds than a record may have" ;;
    3) echo "this line has more than $(($2 - 1)) columns, the most that may stand here" ;;
    4) echo "a byte that is not allowed; lines hold printable ASCII, bytes 32 to 126" ;;
    5) echo "\$\$\$\$, \$MDL, \$RXN or \$RDFILE in the first header line, which may not hold these" ;;
    6) echo "columns 34 to 39 of this counts line are not ' V2000'" ;;
    7) echo "a number is malformed; digits must stand here with spaces before or after them, or spaces alone, and a sign right before the digits only where negatives may stand; a coordinate ends in a point and four digits" ;;
    8) echo "a number outside the range or list that its field allows" ;;
    9) echo "an unknown symbol; an element's symbol in its usual capitals, or A, Q, * or LP, must stand here" ;;
    10) echo "both ends of this bond are the same atom; they must differ" ;;
    11) echo "an earlier bond line joins the same two atoms; a pair may be bonded once" ;;
    12) echo "more bonds than there are pairs of atoms; n atoms have at most n(n-1)/2" ;;
    13) echo "a line that is none of 'M  CHG', 'M  RAD', 'M  ISO' and 'M  END', one of which must stand here" ;;
    14) echo "this atom is listed a second time for this property; once is right" ;;
    15) echo "a column that must be a space is not one" ;;
    16) echo "neither a data header, as '>  <NAME>', nor a \$\$\$\$ line, one of which must stand here" ;;
    17) echo "a data header or \$\$\$\$ line where a value line or the blank line after the values must stand" ;;
    18) echo "a line after 'M  END', with which a molfile ends" ;;
    19) echo "cut short; the file ends where more lines, or the end of this one, must follow" ;;
    20) echo "the room lent is shorter than the canonical text" ;;
    21) echo "the tables hold numbers that cannot be written" ;;
    22) echo "the record is good and no item has that name" ;;
    23) echo "the supplier of this record has more than 24 bytes" ;;
    24) echo "this record has a 65th supplier, one more than a report holds" ;;
    25) echo "this is the 1,000,000th record, one more than a report counts" ;;
    26) echo "an unknown kind of event; R, I, C or D must stand here" ;;
    27) echo "the log ends inside this event; 14 bytes follow R, I and C, and 4 follow D" ;;
    28) echo "an issue above the lot's paper figure; this event is skipped" ;;
    29) echo "a receipt that would make the lot's paper figure more than 1,000,000; this event is skipped" ;;
    30) echo "a receipt for a 513th lot, one more than a store holds; this event is skipped" ;;
    31) echo "the first value line of the FORMULA item is no formula, or the item has no value line" ;;
    32) echo "groups of this formula are nested more than 8 deep" ;;
    33) echo "this formula has more than 9,999 atoms of an element" ;;
    34) echo "an atom is A, Q, * or LP, so the record cannot be compared with a formula" ;;
    35) echo "the rows lent have room for fewer than a record may have" ;;
    36) echo "the first of two files compared is not good" ;;
    37) echo "the second of two files compared is not good" ;;
    38) echo "the room lent is shorter than the mended text" ;;
    39) echo "the list lent is too short" ;;
    *) echo "no sentence for this number" ;;
    esac
}

# The commonest causes.
hint() { # NUMBER
    case $1 in
    4) echo "tabs, accented letters and a byte order mark are common causes" ;;
    5) echo "a second \$\$\$\$ line, where the next record begins, is the common cause" ;;
    6) echo "a header line too few or too many before it, or a V3000 file, which is not served, is the common cause" ;;
    9) echo "CL in capitals for Cl, or a symbol that does not start in column 32, is the common cause" ;;
    13) echo "'A  ', 'V  ', 'M  STY' and other lines than the four are not served" ;;
    16) echo "text after the header's name, such as (1), a name above 30 bytes, or a blank line too many is the common cause" ;;
    17) echo "the blank line after the item's values is missing" ;;
    18) echo "an SDfile is read without --molfile, and one whose name ends in .mol with --sdfile" ;;
    19) echo "a last line without its line end, or a missing 'M  END' or \$\$\$\$ line, is the common cause" ;;
    esac
}

plural() { # NUMBER WORD
    if [ "$1" = 1 ]; then printf '1 %s' "$2"; else printf '%s %ss' "$1" "$2"; fi
}

# What a verdict line says of a file: its status in $status, the sentence in $said and a cause in $cause, empty where there is none.
read_verdict() { # NAME VERDICT
    name=$1 said= cause=
    # shellcheck disable=SC2086
    set -- $2
    case ${1:-none} in
    accepted) status=0 ;;
    refused)
        status=1
        if [ "$3" = 0 ]; then place=; else place=:$3:$4; fi
        said="$name$place: refused $2: $(sentence "$2" "$4")" cause=$(hint "$2")
        ;;
    too)
        status=1
        said="$name: record $3 too long: it does not end within 1,048,576 bytes"
        ;;
    unreadable | endless | once | changed | unwritten | no) status=2 ;; # the program has said why
    *)
        status=2
        printf 'capellanote: %s: the program ended without a verdict\n' "$name" >&2
        ;;
    esac
}

# What $verdict says of a file, on standard error; the status in $status.
tell() { # NAME
    read_verdict "$1" "$verdict"
    [ -z "$said" ] || printf '%s\n' "$said" >&2
    [ -z "$cause" ] || printf '  hint: %s\n' "$cause" >&2
}
