usage="[--molfile | --sdfile] [--progress] [-o FILE] FILE"
about="the canonical text of an SDfile or a molfile"
options="--molfile --sdfile --progress -o="
takes="one file" fewest=1 most=1
programs="records"
place=50

explain() {
    cat <<'END'
Two files with the same reading have the same canonical text, byte for byte.
Nothing of a refused file is written. With -o the output goes to FILE, which appears when it is complete: it may be the file read.
END
}

verb() { # FILE
    settle "$1"
    kind_of "$1"
    if [ "$kind" = sdfile ]; then
        eval "run records canon \${option_progress:+--progress} $list"
    else
        eval "start \"\$room/verdict\" \"\$room/canon\" records canon $list"
        await
        sieve awk 'NR > 1 { print last } { last = $0 }' "$room/canon" # a molfile ends before the $$$$ line
        IFS= read -r verdict <"$room/verdict" || :
        own_verdict 1
    fi
    tell "$1"
}
