# What is said of files, made of the facts that the program check_files writes: for people, or as JSON.
# awk -f tell.awk ROOM NAME...   with the facts of the files of a kind to be read from ROOM/molfile and ROOM/sdfile
# -v molfile=yes, -v sdfile=yes: all files are of that kind. -v json=yes: objects. -v all=yes: a tally. -v strict=yes: a warning makes status 1.
# -v names=yes: item names alone. The status goes to ROOM/status, what belongs on standard error to ROOM/beside.

# ---- Text

# A quoted text byte by byte: what is shown of each in shown[], and how many there are in bytes.
function bytes_of(text,    i) {
    bytes = 0
    for (i = 1; i <= length(text); i++) {
        if (substr(text, i, 2) == "\\x") {
            shown[++bytes] = substr(text, i, 4)
            if (shown[bytes] == "\\x5c") shown[bytes] = "\\"
            i += 3
        } else shown[++bytes] = substr(text, i, 1)
    }
}

# Columns a to b of the text taken apart last; past its end there are spaces.
function columns(a, b,    i, s) {
    for (i = a; i <= b; i++) s = s (i <= bytes ? shown[i] : " ")
    return s
}

function plain(text) {
    bytes_of(text)
    return columns(1, bytes)
}

function hex(digits,    d) {
    d = "0123456789abcdef"
    return 16 * (index(d, substr(digits, 1, 1)) - 1) + index(d, substr(digits, 2, 1)) - 1
}

# Text as a JSON string. A byte that is not printable is the character of its number.
function quoted(text,    i, c, s) {
    for (i = 1; i <= length(text); i++) {
        c = substr(text, i, 1)
        if (c == "\"") c = "\\\""
        else if (c == "\\") {
            c = substr(text, i + 2, 2) == "5c" ? "\\\\" : "\\u00" substr(text, i + 2, 2)
            i += 3
        }
        s = s c
    }
    return "\"" s "\""
}

# The name of a file as a JSON string: its own bytes, but for quotes, backslashes and control bytes.
function quoted_name(name,    i, c, s) {
    for (i = 1; i <= length(name); i++) {
        c = substr(name, i, 1)
        if (c == "\"" || c == "\\") c = "\\" c
        else if (c < " ") c = sprintf("\\u%04x", index(controls, c))
        s = s c
    }
    return "\"" s "\""
}

function trimmed(s) {
    sub(/^ +/, "", s)
    sub(/ +$/, "", s)
    return s
}

function plural(n, word) { return n " " word (n == 1 ? "" : "s") }

# ---- The record that is refused

# Where in the record line k stands: place, which one of how many there, and the item that is open.
function find_place(k,    j) {
    atoms = substr(lines[4], 1, 3) + 0
    bonds = substr(lines[4], 4, 3) + 0
    which = many = 0
    item = ""
    if (k < 4) { place = "header"; which = k; many = 3; return }
    if (k == 4) { place = "counts"; return }
    if (k <= 4 + atoms) { place = "atom"; which = k - 4; many = atoms; return }
    if (k <= 4 + atoms + bonds) { place = "bond"; which = k - 4 - atoms; many = bonds; return }
    place = "property"
    for (j = 5 + atoms + bonds; j < k; j++) {
        if (place == "property") { if (substr(lines[j], 1, 6) == "M  END") place = kind == "molfile" ? "over" : "item" }
        else if (place == "item") { place = "value"; item = name_of(lines[j]) }
        else if (lines[j] ~ /^ *$/) place = "item"
    }
}

function name_of(header) {
    sub(/^> +</, "", header)
    sub(/> *$/, "", header)
    return plain(header)
}

# The kind of line that was expected.
function expected() {
    if (place == "header") return (which == 1 ? "the first" : which == 2 ? "the second" : "the third") " header line"
    if (place == "counts") return "the counts line"
    if (place == "atom" || place == "bond") return place " line " which " of " many
    if (place == "property") return "a property line, or 'M  END'"
    if (place == "over") return "the end of the molfile"
    if (place == "item") return "a data header, as '>  <NAME>', or $$$$"
    return "a value line of the item " item ", or the blank line that ends it"
}

# The field that starts in a column of the refused line: its name, its last column and what may stand there.
function find_field(column,    k, entry, kind_word) {
    field = last = allowed = ""
    if (place == "counts") split("1 3|number of atoms|0 to 999;4 6|number of bonds|0 to 999;7 9|number of atom lists|0;13 15|chiral flag|0 or 1;16 18|number of stext entries|0", rows, ";")
    else if (place == "atom")
        split("1 10|x coordinate|" decimals ";11 20|y coordinate|" decimals ";21 30|z coordinate|" decimals ";32 34|symbol|an element's symbol in its usual capitals, or A, Q, * or LP;35 36|mass difference|-3 to 4;37 39|charge code|0 to 7;40 42|atom parity|0 to 3;43 45|hydrogen count|0 to 5;46 48|stereo care flag|0 or 1;49 51|valence|0 to 15;52 54|H0 designator|0 or 1;61 63|atom map number|0 to " atoms ";64 66|inversion flag|0 to 2;67 69|exact change flag|0 or 1", rows, ";")
    else if (place == "bond")
        split("1 3|first atom|1 to " atoms ";4 6|second atom|1 to " atoms ";7 9|bond type|1 to 8;10 12|bond stereo|" stereos(columns(7, 9) + 0) ";16 18|bond topology|0 to 2;19 21|reacting centre|-1, 0, 1, 2, 4, 5, 8, 9, 12 or 13", rows, ";")
    else {
        kind_word = columns(4, 6)
        entry = int((column - 10) / 8) + 1
        rows[1] = "7 9|number of entries|1 to 8"
        rows[2] = (11 + 8 * (entry - 1)) " " (13 + 8 * (entry - 1)) "|atom of entry " entry "|1 to " atoms
        rows[3] = (15 + 8 * (entry - 1)) " " (17 + 8 * (entry - 1)) "|" (kind_word == "CHG" ? "charge" : kind_word == "RAD" ? "radical" : "isotope") " of entry " entry "|" (kind_word == "CHG" ? "-15 to 15" : kind_word == "RAD" ? "0 to 3" : "1 to 999")
        rows[4] = rows[5] = ""
    }
    for (k = 1; k in rows; k++) {
        split(rows[k], parts, "|")
        split(parts[1], ends, " ")
        if (ends[1] == column && field == "") { field = parts[2]; last = ends[2]; allowed = parts[3] }
    }
    for (k in rows) delete rows[k]
}

function stereos(type) {
    return type == 1 ? "0, 1, 4 or 6 for a single bond" : type == 2 ? "0 or 3 for a double bond" : "0 for this type of bond"
}

# The line of the record that joins the same two atoms as the refused one.
function earlier_bond(    a, b, j, c, d) {
    a = substr(lines[count], 1, 3) + 0
    b = substr(lines[count], 4, 3) + 0
    for (j = 5 + atoms; j < count; j++) {
        c = substr(lines[j], 1, 3) + 0
        d = substr(lines[j], 4, 3) + 0
        if ((a == c && b == d) || (a == d && b == c)) return begun + j - 1
    }
}

# ---- What a file is by its first bytes, where its first lines are refused

function first_bytes(    first, four) {
    if (record != 1 || count > 4 && !(place == "item" && item == "")) return ""
    first = (1 in lines) ? lines[1] : ""
    four = count == 4 ? line : ""
    if (number == 19 && count == 1 && !unfinished) return "the file is empty"
    if (first ~ /^\\x1f\\x8b/) return "this is a gzip file: unpack it first"
    if (first ~ /^PK\\x03\\x04/) return "this is a zip file: unpack it first"
    if (first ~ /^(\\xff\\xfe|\\xfe\\xff)/ || first ~ /^.\\x00.\\x00/) return "this is text in UTF-16: ask for ASCII"
    if (first ~ /^\\xef\\xbb\\xbf/) return "the file begins with a byte order mark: ask for ASCII without one"
    if (tolower(first) ~ /^ *<(!doctype|html|\?xml)/) return "this is a page of HTML or XML, perhaps an error page in place of a download: fetch the file anew"
    if (first ~ /^\$RXN/) return "this is a reaction file (RXN), another format: ask for an SDfile"
    if (first ~ /^\$RDFILE/) return "this is an RDfile, another format: ask for an SDfile"
    if (number == 19 && place == "item" && kind == "sdfile") return "this may be a molfile: check it with --molfile, or ask for its $$$$ line"
    if (number == 19 && count == 1) return "the file has no line ends at all: ask for lines that end in LF or CR LF"
    if (number == 3 && count == 1 && size > 1000) return "the file has few line ends or none: ask for lines that end in LF or CR LF"
    if ((first ~ /,.*,/ || first ~ /;.*;/ || first ~ /\\x09.*\\x09/) && (four ~ /,.*,/ || four ~ /;.*;/ || four ~ /\\x09.*\\x09/ || count == 1)) return "this looks like a table (CSV): ask for an SDfile"
    return ""
}

# ---- The sentence of a refusal, what to ask the supplier for, and the numbers that a program wants

function judge_it(    rest, k, s) {
    field = found = allowed = ask = also = ""
    bytes_of(line)
    if (number == 3) {
        found = size " columns"
        allowed = "at most " (column - 1) " columns"
        sentence = "this line has " size " columns, and may have " (column - 1)
        ask = place == "value" ? "long values broken into lines of at most 200 columns" : "lines of at most " (column - 1) " columns"
    } else if (number == 4) {
        s = shown[column]
        found = s
        allowed = "bytes 32 to 126"
        sentence = "the byte " s (s == "\\x09" ? ", a tab," : s == "\\x0d" ? ", a carriage return," : s ~ /^\\x[89a-f]/ ? ", no ASCII," : "") " is not allowed"
        ask = s == "\\x09" ? "spaces in place of tabs" : s == "\\x0d" ? "lines that end in LF or CR LF" : "plain ASCII, without accents and other signs"
    } else if (number == 5) {
        s = line
        found = index(s, "$$$$") ? "$$$$" : index(s, "$RXN") ? "$RXN" : index(s, "$RDFILE") ? "$RDFILE" : "$MDL"
        sentence = found == "$$$$" ? "$$$$ where a record begins: a second $$$$ line" : found " in the first header line: a reaction file, another format"
        ask = found == "$$$$" ? "one $$$$ line after each record" : "an SDfile"
    } else if (number == 6) {
        found = columns(34, 39)
        field = "version"
        allowed = " V2000"
        if (line ~ /V3000/) { sentence = "this record is V3000, which is " served; ask = "the file in V2000" }
        else { sentence = "columns 34 to 39 are '" found "', and must be ' V2000'"; ask = "V2000 with the counts line in its columns; a header line too few or too many has this effect, too" }
    } else if (number == 7) {
        find_field(column)
        found = columns(column, last)
        sentence = "the " field " is '" found "', which is no number of its form; allowed: " allowed
        if (place == "counts") ask = "three header lines before each counts line, no more and no fewer; or this is no SDfile"
        else if (place == "atom" && column < 31) ask = "coordinates in ten columns, with a point and four decimals"
        else ask = "numbers in their columns"
    } else if (number == 8) {
        find_field(column)
        found = trimmed(columns(column, last))
        if (found == "") found = "0"
        sentence = "the " field " is " found "; allowed: " allowed
        if (place == "counts" && column == 7) { sentence = sentence "; atom lists are " served; ask = "structures without atom lists" }
        else if (place == "counts" && column == 16) { sentence = sentence "; stext is " served; ask = "structures without stext" }
        else if (place == "bond" && column < 7) ask = "bonds between atoms 1 to " atoms ", or the right number of atoms in the counts line"
        else if (place == "property" && column == 7) ask = "property lines of one to eight entries"
        else ask = "the " field " as the format has it"
    } else if (number == 9) {
        find_field(32)
        found = columns(32, 34)
        s = trimmed(found)
        sentence = "'" found "' is no symbol"
        if (s ~ /^R(#|[0-9])/ || s == "L") { sentence = "'" s "' stands for an Rgroup or an atom list, which is " served; ask = "whole structures" }
        else if (s == "D" || s == "T") { sentence = sentence "; deuterium and tritium are H with an isotope"; ask = "H with its isotope in an 'M  ISO' line" }
        else if (found ~ /^ /) { sentence = sentence "; it must begin in column 32"; ask = "atom lines in their columns" }
        else if (s ~ /^[A-Z][A-Z]$/) { sentence = sentence "; symbols are written as in " substr(s, 1, 1) tolower(substr(s, 2)); ask = "symbols in their usual capitals" }
        else ask = "an element's symbol in its usual capitals, or A, Q, * or LP"
    } else if (number == 10) {
        found = trimmed(columns(1, 3))
        sentence = "both ends of this bond are atom " found
        ask = "bonds between two atoms"
    } else if (number == 11) {
        found = trimmed(columns(1, 3)) " and " trimmed(columns(4, 6))
        sentence = "atoms " found " are bonded in line " earlier_bond() " already"
        ask = "each bond once"
    } else if (number == 12) {
        k = columns(1, 3) + 0
        find_field(4)
        found = trimmed(columns(4, 6))
        allowed = "0 to " (k * (k - 1) / 2)
        sentence = found " bonds are announced, and " plural(k, "atom") " have " plural(k * (k - 1) / 2, "pair") " at most"
        ask = "a counts line with the right numbers, and no bond twice"
    } else if (number == 13) {
        found = columns(1, 6)
        allowed = "'M  CHG', 'M  RAD', 'M  ISO', 'M  END'"
        if (line ~ /^M  [A-Z]/) { sentence = "'" found "' is a property that is " served; ask = "structures without '" found "' lines" }
        else if (line ~ /^(A|V|G|S)  /) { sentence = "'" columns(1, 3) "' begins a line that is " served; ask = "structures without such lines" }
        else if (line ~ /^ *[0-9]+ +[0-9]+ +[0-9]/) { sentence = "a bond line more than the counts line says, which is " plural(bonds, "bond"); ask = "a counts line with the right number of bonds" }
        else { sentence = "'M  END' is missing, or the counts line has too few bonds"; ask = "'M  END' after the bonds of each record" }
    } else if (number == 14) {
        found = trimmed(columns(column, column + 2))
        field = "atom"
        sentence = "atom " found " is listed twice in '" columns(1, 6) "' lines"
        ask = "each atom once in the lines of a property"
    } else if (number == 15) {
        found = columns(column, column)
        allowed = "a space"
        sentence = "column " column " is '" found "', and must be a space"
        if (place == "property") ask = line ~ /^M  END/ ? "nothing after 'M  END'" : "no text after the last entry; or the number of entries is too small"
        else if (place == "atom" && column == 31) ask = "atom lines in their columns"
        else ask = "no text after the last field of the line"
    } else if (number == 16) item_line()
    else if (number == 17) {
        found = line ~ /^\$\$\$\$/ ? "$$$$" : "a data header"
        if (line ~ /^\$\$\$\$ *$/) { sentence = "the record ends before the item " item " does: the blank line after its values is missing"; ask = "a blank line after the values of each item" }
        else if (found == "$$$$") { sentence = "a value of the item " item " begins with $$$$, which ends a record"; ask = "values that do not begin with $$$$" }
        else { sentence = "a data header before the item " item " has ended: the blank line after its values is missing"; ask = "a blank line after the values of each item" }
    } else if (number == 18) {
        sentence = "a line after 'M  END', with which a molfile ends"
        ask = "nothing"
        also = molfile != "" ? "an SDfile is checked without --molfile" : "the name says that this is a molfile: an SDfile of such a name is checked with --sdfile"
    } else cut_short()
    rest = first_bytes()
    if (rest != "") { also = rest; if (number != 18) ask = "" }
}

function item_line(    s, name, after) {
    s = columns(1, bytes)
    allowed = "a data header, as '>  <NAME>', or $$$$"
    if (s ~ /^ *$/) {
        found = "a blank line"
        sentence = "a blank line too many: one ends an item, and none stands before $$$$"
        ask = "one blank line after the values of each item, and none elsewhere"
        return
    }
    found = trimmed(s)
    if (s ~ /^> +<[^<>]*>/) {
        name = s
        sub(/^> +</, "", name)
        sub(/>.*$/, "", name)
        after = s
        sub(/^> +<[^<>]*>/, "", after)
        if (length(name) > 30) {
            field = "name"
            found = name
            allowed = "1 to 30 bytes"
            sentence = "the name of this item has " length(name) " bytes, and may have 30"
            ask = "names of at most 30 bytes"
            return
        }
        if (name == "") { sentence = "this item has no name"; ask = "a name for each item"; return }
        field = "text after the name"
        found = trimmed(after)
        allowed = "spaces"
        sentence = "'" found "' stands after the name of the item " name ", which is " served
        ask = "data headers that end with the name, as '>  <" name ">'"
        return
    }
    if (s ~ /^>/) { sentence = "this begins as a data header and is none: '>', spaces, '<', a name of 1 to 30 bytes, '>'"; ask = "data headers as '>  <NAME>'" }
    else if (s ~ /^\$\$\$\$/) { sentence = "text after $$$$"; ask = "$$$$ alone in its line" }
    else { sentence = "text outside an item: a blank line before it has ended the item, or its header is missing"; ask = "values without blank lines among them" }
}

function cut_short(    j, inked) {
    for (j = 1; j < count; j++) if (lines[j] !~ /^ *$/) inked = 1
    if (unfinished && line !~ /^ *$/) inked = 1
    found = "the end of the file"
    if (!inked && record > 1) {
        sentence = "only blank lines follow the last $$$$"
        ask = "nothing after the last $$$$ line"
    } else if (unfinished) {
        sentence = "the file ends within a line, where " expected() " must stand"
        ask = "the whole file, with a line end after its last line"
    } else {
        sentence = "the file ends where " expected() " must stand"
        ask = place == "item" || place == "value" ? "a $$$$ line after the record, or the whole file" : "the whole file"
    }
}

# ---- A refusal is told

function tell_refusal(    title, shown_line, mark, i, from, to) {
    title = (1 in lines) && (count > 1 || !unfinished) ? lines[1] : ""
    if (long) {
        tally["too long"]++
        if (json) { print "{\"file\":" quoted_name(name) ",\"record\":" record ",\"title\":" quoted(title) ",\"number\":null,\"line\":" begun ",\"column\":null,\"field\":null,\"found\":\"more than 1048576 bytes\",\"allowed\":\"1048576 bytes\",\"text\":" quoted(title) "}"; return }
        print name ":" begun ": record " record " too long: it does not end within 1,048,576 bytes, a limit of this program and not of the format"
        print "  " whose(title)
        print "  ask for: records of at most 1,048,576 bytes"
        return
    }
    tally[number]++
    line = (count in lines) ? lines[count] : ""
    size = sizes[count]
    find_place(count)
    judge_it()
    if (json) {
        print "{\"file\":" quoted_name(name) ",\"record\":" record ",\"title\":" quoted(title) ",\"number\":" number ",\"line\":" at ",\"column\":" column ",\"field\":" (field == "" ? "null" : quoted(safe(field))) ",\"found\":" (found == "" ? "null" : quoted(safe(found))) ",\"allowed\":" (allowed == "" ? "null" : quoted(safe(allowed))) ",\"text\":" quoted(line) ",\"expected\":" quoted(safe(expected())) ",\"message\":" quoted(safe(sentence)) ",\"ask\":" (ask == "" ? "null" : quoted(safe(ask))) "}"
        return
    }
    print name ":" at ":" column ": refused " number ": " sentence
    print "  " whose(title) "; expected here: " expected()
    if (count in lines) {
        bytes_of(line)
        from = column > 100 ? column - 60 : 1
        to = bytes < from + 109 ? bytes : from + 109
        shown_line = from > 1 ? "..." : ""
        for (i = from; i <= to; i++) {
            if (i < column) mark = mark blanks(shown[i])
            shown_line = shown_line shown[i]
        }
        for (i = to + 1; i < column; i++) mark = mark " "
        print "  " at " | " shown_line (to < size ? "..." : "")
        print "  " blanks(at) " | " (from > 1 ? "   " : "") mark "^"
    }
    if (also != "") print "  " also
    if (ask != "" && ask != "nothing") print "  ask for: " ask
}

function blanks(s) { gsub(/./, " ", s); return s }

# Text made here, as the facts quote it.
function safe(s,    i, c, r) {
    for (i = 1; i <= length(s); i++) {
        c = substr(s, i, 1)
        if (c == "\\" && substr(s, i) !~ /^\\x[0-9a-f][0-9a-f]/) c = "\\x5c"
        r = r c
    }
    return r
}

# The record by its number and its first header line.
function whose(title) {
    title = trimmed(plain(title))
    if (length(title) > 60) title = substr(title, 1, 57) "..."
    return "record " record (title == "" ? "" : ", " title) ", from line " begun
}

# ---- Warnings

function warn(what, record, line, text, words) {
    if (names) return
    warned++
    if (json) {
        print "{\"file\":" quoted_name(name) ",\"warning\":\"" what "\"" (record == "" ? "" : ",\"record\":" record ",\"line\":" line) (text == "" ? "" : ",\"text\":" quoted(text)) ",\"message\":" quoted(words) "}"
        return
    }
    print name (line == "" ? "" : ":" line) ": warning: " words
}

# Names that differ only in case, or by spaces at their ends.
function near_names(    i, key, first) {
    for (i = 1; i <= items; i++) {
        key = tolower(names_of[i])
        sub(/ +$/, "", key)
        if (key in first) warn("names", "", "", names_of[i], "the item names '" plain(names_of[first[key]]) "' (" plural(counts_of[first[key]], "record") ") and '" plain(names_of[i]) "' (" plural(counts_of[i], "record") ") differ only in case or by spaces at the end")
        else first[key] = i
    }
    if (full) warn("names", "", "", "", "more than 256 different item names; those after them are not compared")
}

# ---- A file

function tell_file(    fact, status, word, ended) {
    held = items = full = warned = 0
    for (word in tally) delete tally[word]
    status = 2
    while ((getline fact < (room "/" kind)) > 0) {
        word = fact
        sub(/ .*/, "", word)
        if (word == "line" || word == "rest") { hold(fact, word); continue }
        if (held) { if (!names) tell_refusal(); held = 0 }
        if (word == "record") begin_record(fact)
        else if (word == "item") { items++; counts_of[items] = part(fact, 2); names_of[items] = after(fact, 2) }
        else if (word == "names") full = 1
        else if (word == "twice") warn("twice", part(fact, 2), part(fact, 3), after(fact, 3), "the item " plain(after(fact, 3)) " stands twice in record " part(fact, 2) "; fetch sees the first alone")
        else if (word == "swallowed") warn("swallowed", part(fact, 2), part(fact, 3), after(fact, 3), "this value line looks like a data header, and is none, so an item may be missing in record " part(fact, 2) ": " plain(after(fact, 3)))
        else if (word == "end") { ended = 1; status = tell_end(part(fact, 2), part(fact, 3)); break }
        else if (word == "unread") { ended = 1; if (json) print "{\"file\":" quoted_name(name) ",\"records\":0,\"accepted\":0,\"refused\":0,\"verdict\":\"unread\"}"; break }
    }
    if (!ended) print "capellanote: " name ": the program ended without a verdict" >(room "/beside")
    return status
}

function part(fact, k) { split(fact, words, " "); return words[k] }

function after(fact, k) {
    while (k-- > 0) sub(/^[^ ]* /, "", fact)
    return fact
}

function begin_record(fact) {
    record = part(fact, 2)
    begun = words[3]
    long = words[4] == "long"
    number = words[5] + 0
    at = words[6]
    column = words[7] + 0
    for (count in lines) delete lines[count]
    count = unfinished = 0
    held = 1
}

function hold(fact, word) {
    count++
    sizes[count] = part(fact, 2)
    lines[count] = after(fact, 2)
    if (word == "rest") unfinished = sizes[count] > 0
    if (word == "rest" && !unfinished) delete lines[count]
}

function tell_end(accepted, refused,    bad) {
    bad = refused > 0
    if (names) { tell_names(refused); return bad }
    near_names()
    if (accepted + refused == 0) warn("empty", "", "", "", "no records")
    if (json) print "{\"file\":" quoted_name(name) ",\"records\":" (accepted + refused) ",\"accepted\":" accepted ",\"refused\":" refused ",\"verdict\":\"" (bad ? "refused" : "accepted") "\"}"
    else if (!bad) print name ": accepted, " plural(accepted, "record")
    else if (all) print name ": refused; " plural(accepted, "record") " accepted, " refused " refused: " tallied()
    total += bad ? 0 : accepted
    return bad || (strict && warned) ? 1 : 0
}

# Item names alone.
function tell_names(refused,    i) {
    for (i = 1; i <= items; i++) print counts_of[i] "\t" plain(names_of[i])
    if (full) print name ": more than 256 different names" >(room "/beside")
    if (refused) print name ": " plural(refused, "record") " refused, and passed over" >(room "/beside")
}

# How many were refused by which number.
function tallied(    k, s) {
    for (k = 3; k <= 19; k++) if (k in tally) s = s (s == "" ? "" : ", ") tally[k] " by " k
    if ("too long" in tally) s = s (s == "" ? "" : ", ") tally["too long"] " too long"
    return s
}

BEGIN {
    served = "legal in the format and not served here"
    decimals = "spaces, digits, a point and four decimals, ending in the field's last column"
    for (i = 1; i < 32; i++) controls = controls sprintf("%c", i)
    room = ARGV[1]
    for (i = 2; i < ARGC; i++) {
        name = ARGV[i]
        kind = molfile != "" || (sdfile == "" && name ~ /\.[mM][oO][lL]$/) ? "molfile" : "sdfile"
        status = tell_file()
        sums[status]++
        if (status > worst) worst = status
    }
    if (!json && !names && ARGC > 3) print plural(ARGC - 2, "file") ": " sums[0] + 0 " accepted with " plural(total + 0, "record") ", " sums[1] + 0 " refused, " sums[2] + 0 " not read"
    print worst + 0 >(room "/status")
    exit
}
