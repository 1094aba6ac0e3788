# Two files held against each other: differences that are none, those that are, files that are refused, too long or cannot be read.

mkdir "$room/same"
python3 - "$room/same/" <<'END'
import sys

room = sys.argv[1]
sample = open("examples/sample.sdf", "rb").read()

def put(name, text):
    with open(room + name, "wb") as file:
        file.write(text)

def record(title, lot, items=b""):
    return (title + b"\n\n\n" + b"  2  1  0  0  0  0  0  0  0  0999 V2000\n"
            + b"    0.0000    0.0000    0.0000 C   0  0  0  0  0  0  0  0  0  0  0  0\n"
            + b"    1.2500    0.0000    0.0000 O   0  0  0  0  0  0  0  0  0  0  0  0\n"
            + b"  1  2  1  0  0  0  0\nM  END\n>  <LOT>\n" + lot + b"\n\n" + items + b"$$$$\n")

three = record(b"AB-1", b"00417") + record(b"AB-2", b"00418") + record(b"AB-3", b"00419")
put("plain", three)
put("crlf", three.replace(b"\n", b"\r\n"))
# Columns that are not read: 10 to 12 and 19 to 33 of a counts line, 13 to 15 of a bond line.
put("unread", three.replace(b"  2  1  0  0  0  0  0  0  0  0999 V2000", b"  2  1  0  7  0  0  1  2  3  4  5 V2000").replace(b"  1  2  1  0  0  0  0\n", b"  1  2  1  0 99  0  0\n"))
put("spaces", three.replace(b">  <LOT>", b"> <LOT>  ").replace(b"\n\n$$$$", b"\n    \n$$$$  "))
put("zero", three.replace(b"00419", b"0419"))
put("title", three.replace(b"AB-2", b""))
put("value-space", three.replace(b"00418\n", b"00418 \n"))
put("two", record(b"AB-1", b"00417") + record(b"AB-2", b"00418"))
put("empty", b"")
put("refused", three.replace(b"00418\n\n", b"00418\n"))
# Records over the ends of the buffer, the last one different.
many = b"".join(record(b"R%d" % i, b"%07d" % i, b"".join(b">  <A%d>\n%s\n\n" % (k, b"x" * 190) for k in range(40))) for i in range(400))
put("many", many)
put("many-spaces", many.replace(b">  <LOT>", b"> <LOT>"))
put("many-last", many.replace(b"0000399", b"0000398"))
put("long", record(b"L", b"1", (b">  <V>\n" + b"y" * 199 + b"\n\n") * 5200))
END

# FIRST SECOND STATUS OUTPUT ERROR
same_is() {
    got ./capellanote same "$room/same/$1" "$room/same/$2"
    is "same: $1 and $2" "$3" "$4" "$5"
}

for other in plain crlf unread spaces; do
    same_is plain "$other" 0 "" ""
    same_is "$other" plain 0 "" ""
done
same_is empty empty 0 "" ""
same_is many many-spaces 0 "" ""
same_is plain zero 1 "record 3 AB-3 differs" ""
same_is zero plain 1 "record 3 AB-3 differs" ""
same_is plain title 1 "record 2 AB-2 differs" ""
same_is title plain 1 "record 2 differs" ""
same_is plain value-space 1 "record 2 AB-2 differs" ""
same_is plain two 1 "record 3 AB-3 is in the first file only" ""
same_is two plain 1 "record 3 AB-3 is in the second file only" ""
same_is empty plain 1 "record 1 AB-1 is in the second file only" ""
same_is many many-last 1 "record 400 R399 differs" ""
same_is refused plain 2 "" "/same/refused:23:1: refused 17: "
same_is plain refused 2 "" "/same/refused:23:1: refused 17: "
same_is refused refused 2 "" "/same/refused:23:1: refused 17: "
same_is long plain 2 "" "/same/long: record 1 too long"
same_is plain none 2 "" "/same/none: "
same_is none plain 2 "" "/same/none: "
got sh -c './capellanote same "$1/same/plain" /dev/stdin <"$1/same/zero"' sh "$room"
is "same: standard input that goes back" 1 "record 3 AB-3 differs" ""
got sh -c 'cat "$1/same/zero" | ./capellanote same "$1/same/plain" /dev/stdin' sh "$room"
is "same: a pipe" 1 "record 3 AB-3 differs" ""
got sh -c './capellanote same - "$1/same/plain" <"$1/same/zero"' sh "$room"
is "same: standard input" 1 "record 3 AB-3 differs" ""
got ./capellanote same - -
is "same: standard input twice" 2 "" "- stands twice"
got ./capellanote same "$room/same/plain"
is "same: one file" 2 "" "same takes two files"
got ./capellanote same --molfile "$room/same/plain" "$room/same/plain"
is "same: no option of it" 2 "" "--molfile is no option of this command"
