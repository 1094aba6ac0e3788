usage="NUMBER..."
about="what a number means, why it happens and what to ask the supplier for"
takes="numbers of refusals" fewest=1
place=15

explain() {
    echo "The numbers are those of check, count and the other verbs: 1 to 22 of records, 26 to 30 of scanner logs, 31 to 34 of formulas."
}

verb() { # NUMBERS...
    status=0
    for number in "$@"; do
        told=$(NUMBER=$number LC_ALL=C awk -F '\t' '
            $1 == ENVIRON["NUMBER"] "" { print "refused " $1 ": " $2 "\n  why: " $3 "\n  ask for: " $4 }' "$here/command/numbers.txt")
        if [ -n "$told" ]; then
            say '%s\n' "$told"
        else
            printf 'capellanote: %s is the number of no refusal\n' "$number" >&2
            status=2
        fi
    done
}
