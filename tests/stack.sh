# Every verb that runs `records` or `mend_files`, with no more stack than is usual, 8 MB.

in_usual_stack() { # WORDS...
    (ulimit -S -s 8192 && exec ./capellanote "$@")
}

for words in "read examples/sample.sdf" "fetch LOT examples/sample.sdf" "canon examples/sample.sdf" "pieces examples/sample.sdf" "formula examples/sample.sdf" \
    "same examples/sample.sdf examples/abcd.sdf" "compare examples/sample.sdf examples/abcd.sdf" "mend examples/sample.sdf" "tally examples/sample.sdf" \
    "replay examples/door.log" "stock examples/door.log examples/abcd.sdf"; do
    # shellcheck disable=SC2086
    got in_usual_stack $words
    if [ "$status" -lt 2 ]; then ok; else bad "8 MB of stack: $words" "status $status: $(head -c 300 "$room/err")"; fi
done
