usage="[--tsv] [--molfile | --sdfile] [--progress] [-o FILE] NAME FILE... | -n NAME [-n NAME]... FILE..."
about="the items of these names in every record, as JSON or as a table"
options="--tsv --molfile --sdfile --progress -o= -n+"
takes="the name of an item and a file" fewest=1
programs="records"
place=40

explain() {
    cat <<'END'
One name: a line a record, {"record":1,"line":1,"value":["00417"]}: its value lines, null where the record has no such item.
Several names, with -n: {"record":1,"line":1,"values":{"LOT":["00417"],"DRUM":null}}. Several files: "file" stands first.
--tsv: a table, tab between columns, with file, record and a column a name; value lines are joined by \n, a backslash is \\,
in the name of a file a line feed is \n and a tab \t, and a record without the item has nothing there.
A name that no record of a file has is told on standard error. Nothing of a refused file is written; the others are.
END
}

# The program's lines for each name, side by side, as the lines asked for. A name is escaped as the program escapes it.
# Of several files the verdict lines say how many lines are whose; of one file all are.
# shellcheck disable=SC2016
merge='
    function text(s,    i, c, r) {
        for (i = 1; i <= length(s); i++) {
            c = substr(s, i, 1)
            if (c == "\"" || c == "\\") r = r "\\" c
            else if (c < " ") r = r sprintf("\\u%04x", index(low, c))
            else r = r c
        }
        return "\"" r "\""
    }
    # The value lines of a JSON list as one cell.
    function cell(s,    r, c, i, open, lines) {
        for (i = 1; i <= length(s); i++) {
            c = substr(s, i, 1)
            if (c == "\"") { open = !open; if (open && lines++) r = r "\\n" }
            else if (open && c == "\\") { c = substr(s, ++i, 1); r = r (c == "\\" ? "\\\\" : c) }
            else if (open) r = r c
        }
        return r
    }
    # The next line for each name: what stands before the values, and the values. Nothing where the first has no more.
    function next_row(    k, line, at) {
        for (k = 1; k <= count; k++) {
            if ((getline line < (room "/item." k)) <= 0) { if (k == 1) return 0; exit 3 }
            at = index(line, ",\"value\":")
            head = substr(line, 2, at - 2)
            row[k] = substr(line, at + 9, length(line) - at - 9)
        }
        return 1
    }
    # Text of any bytes as one cell.
    function one_cell(s) {
        gsub(/\\/, "&&", s)
        gsub(/\n/, "\\n", s)
        gsub(/\t/, "\\t", s)
        return s
    }
    function as_table(file,    out, k) {
        out = one_cell(file) "\t" substr(head, 10, index(head, ",") - 10)
        for (k = 1; k <= count; k++) out = out "\t" cell(row[k])
        return out
    }
    function as_json(file,    out, k) {
        out = "{" (several == "" ? "" : "\"file\":" text(file) ",") head
        if (count == 1) return out ",\"value\":" row[1] "}"
        for (k = 1; k <= count; k++) out = out (k == 1 ? ",\"values\":{" : ",") text(names[k]) ":" row[k]
        return out "}}"
    }
    BEGIN {
        for (i = 1; i < 32; i++) low = low sprintf("%c", i)
        room = ENVIRON["ROOM"]
        count = split(ENVIRON["NAMES"], names, "\n")
        for (f = 1; f < ARGC; f++) {
            left = 1 # of one file: as long as there are any
            if (several != "") {
                getline verdict < (room "/verdict.1")
                left = verdict ~ /^accepted / ? substr(verdict, 10) + 0 : 0
            }
            records = 0
            for (k = 1; k <= count; k++) found[k] = 0
            while (records < left && next_row()) {
                print tsv == "" ? as_json(ARGV[f]) : as_table(ARGV[f])
                for (k = 1; k <= count; k++) if (row[k] != "null") found[k] = 1
                records++
                if (several == "") left++
            }
            for (k = 1; k <= count; k++) if (records && !found[k]) print f " " names[k] >(room "/missing")
        }
        for (k = 2; k <= count; k++) while ((getline line < (room "/item." k)) > 0) exit 3
        exit 0
    }'

# It has a process of its own.
merge_items() { # FILES...
    NAMES=$names ROOM=$room LC_ALL=C
    export NAMES ROOM LC_ALL
    # shellcheck disable=SC2086
    exec $leash awk -v tsv="$option_tsv" -v several="$several" "$merge" "$@"
}

# A process a name, for all files. Of one file the lines go straight on; of several they wait for the verdicts.
fetch_items() { # FILES...
    settle "$@"
    k=0 progress=${option_progress:+--progress}
    while IFS= read -r name; do
        k=$((k + 1))
        [ -n "$several" ] || pipe "item.$k"
        eval "start \"\$room/verdict.$k\" \"\$room/item.$k\" records fetch \"\$name\" \$progress $list"
        progress=
    done <"$room/names"
    [ -n "$several" ] || return 0
    await
    [ "$(cat "$room"/verdict.[0-9]* | grep -vc '^unwritten')" = $((k * $#)) ] || no_room "what is fetched"
    ! grep -q '^changed' "$room/verdict.1" || die "a file changed while it was read, so nothing is written"
}

# What the verdict lines say of the files, and which names no record of a file has: lines that begin with the file's number, in their order.
tell_files() { # FILES...
    worst=0 at=0 line=
    exec 8<"$room/verdict.1"
    : >>"$room/missing"
    exec 9<"$room/missing"
    IFS= read -r line <&9 || :
    for file in "$@"; do
        at=$((at + 1)) verdict=
        IFS= read -r verdict <&8
        own_verdict "$at"
        tell "$file"
        [ "$status" -le "$worst" ] || worst=$status
        while [ "${line%% *}" = "$at" ]; do
            printf 'capellanote: %s: no record has an item named %s\n' "$file" "${line#* }" >&2
            line=
            IFS= read -r line <&9 || :
        done
    done
    status=$worst
    [ -z "$several" ] || whole=yes # of those that are not refused
}

# The columns of a table.
put_heading() {
    say 'file\trecord'
    while IFS= read -r name; do say '\t%s' "$name"; done <"$room/names"
    say '\n'
}

verb() { # [NAME] FILES...
    names=$option_n
    if [ -z "$names" ]; then
        names=$1
        shift
        case $names in
        "") misused "fetch takes the name of an item, and this one is empty" ;;
        *"
"*) misused "no item has a line end in its name" ;;
        esac
    fi
    [ $# -gt 0 ] || misused "fetch takes $takes"
    printf '%s\n' "$names" >"$room/names"
    several=
    [ $# = 1 ] || several=yes
    [ -z "$option_tsv" ] || put_heading
    fetch_items "$@"
    sieve merge_items "$@"
    tell_files "$@"
}
