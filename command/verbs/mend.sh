usage="[-o FILE] FILE"
about="an SDfile with what can be mended mended; each repair is told on standard error"
options="-o="
takes="one file" fewest=1 most=1
programs="mend_files"
place=55

explain() {
    cat <<'END'
An empty line is put before a data header or a $$$$ line that stands where a value line or the blank line after the values must stand; a blank line
is dropped where a data header or $$$$ must stand; blank lines after the last record are dropped; the line end missing at the very end is added.
FILE is an SDfile, whatever its name. All other lines come out byte for byte, and FILE itself is never written. Each repair is told with its line in FILE.
Where the mended text is still refused, nothing is written, and the line of the refusal counts in the mended text.
A record, or the blank lines at the end, may take up to 1,048,576 bytes, and a record may have 32,768 repairs.
END
}

verb() { # FILE
    twice "$1"
    shown=$1
    [ "$shown" != - ] || shown="standard input"
    run mend_files "$path" "$shown"
    case $verdict in
    "refused "*) tell "$shown, mended" ;;
    *) tell "$shown" ;;
    esac
}
