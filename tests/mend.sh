# Files mended: each repair alone and together, CR LF, a file cut anywhere, what is not mended, long files, and the example. The second program's model
# says what is right. Sourced by tests/run.

mkdir "$room/mend"
python3 - "$room/mend/" <<'END'
import sys
sys.path.insert(0, "oracle")
from mending import mend
from samples import MOLFILE, SAMPLE, edit

room = sys.argv[1]
WORDS = {1: "an empty line put before this line", 2: "blank line dropped", 3: "line end added"}
TAIL = b">  <A>\n1\n\n$$$$\n"

def put(name, data):
    answer, text, repairs = mend(data, 10 ** 8, 10 ** 8)
    path = room + name
    if answer[0] == "refused":
        said = "%s, mended:%d:%d: refused %d:" % ((path,) + (answer[2], answer[3], answer[1]))
    else:
        said = "".join("%s:%d: %s\n" % (path, line, WORDS[what]) for line, what in repairs)
    for end, content in (("", data), (".out", text), (".err", said.encode()), (".status", b"1" if answer[0] == "refused" else b"0")):
        with open(path + end, "wb") as file:
            file.write(content)

for name, tail in (
        ("good", TAIL), ("no-end", TAIL[:-1]), ("no-blank", b">  <A>\n1\n$$$$\n"), ("no-blank-no-end", b">  <A>\n1\n$$$$"),
        ("no-blank-header", b">  <A>\n1\n> <B>\n\n$$$$\n"), ("two-headers", b">  <A>\n> <B>\n\n$$$$\n"), ("blank-before", b"\n" + TAIL),
        ("two-blanks", b">  <A>\n1\n  \n\n$$$$\n"), ("blank-of-300", b" " * 300 + b"\n" + TAIL), ("blanks-at-end", TAIL + b"\n \n\r\n"),
        ("unfinished-blank", TAIL + b"\n  "), ("lone-cr", TAIL + b"\r"), ("crlf", b">  <A>\r\n1\r\n$$$$\r\n"),
        ("all", b"\n>  <A>\n1\n$$$$\n \n "), ("dollars-x", b">  <A>\n1\n$$$$x\n"), ("long-dollars", b">  <A>\n1\n$$$$" + b" " * 77 + b"\n"),
        ("value-at-item", b">  <A>\n1\n\nx\n$$$$\n"), ("no-dollars", b">  <A>\n1\n\n")):
    put(name, MOLFILE + tail)
put("empty", b"")
put("blanks", b"\n\n")
put("many-blanks", b"\n" * 9)
put("blank-title", SAMPLE + edit(1, b""))
put("dollars-in-header", SAMPLE.replace(b"\n\ndrum 3", b"\n$$$$\n$$$$  ", 1) + SAMPLE)
put("later-record", edit(drop=12) + edit(4, b"x", 1))
put("crlf-both", (edit(drop=12) + SAMPLE).replace(b"\n", b"\r\n")[:-2])
damaged = edit(drop=12) + b"".join(SAMPLE.splitlines(True)[:9]) + b"\n>  <A>\n1\n$$$$\n \n"
for at in list(range(0, len(damaged), 17)) + list(range(len(damaged) - 40, len(damaged) + 1)):
    put("cut-%d" % at, damaged[:at])
# Records over the ends of the buffer, a repair in each, and blank lines at the end.
record = MOLFILE + b"".join(b">  <A%d>\n%s\n" % (k, b"x" * 190) for k in range(40))
put("many", (record + b"$$$$\n") * 400 + b"\n" * 3)
put("many-refused", (record + b"$$$$\n") * 300 + record + b"$$$$x\n" + record + b"$$$$\n")
END

for file in "$room"/mend/*.status; do
    case=${file%.status}
    got ./capellanote mend "$case"
    if [ "$status" != "$(cat "$case.status")" ]; then
        bad "mend: ${case##*/}" "status $status: $(head -c 300 "$room/err")"
    elif ! cmp -s "$room/out" "$case.out"; then
        bad "mend: ${case##*/}" "not the mended text: $(head -c 300 "$room/err")"
    elif [ "$status" = 0 ] && ! cmp -s "$room/err" "$case.err"; then
        bad "mend: ${case##*/}" "it said '$(head -c 300 "$room/err")', not '$(head -c 300 "$case.err")'"
    elif ! grep -qF -- "$(head -n 1 "$case.err")" "$room/err" && [ "$status" = 1 ]; then
        bad "mend: ${case##*/}" "it said '$(head -c 300 "$room/err")', without '$(cat "$case.err")'"
    else
        ok
    fi
done

# What does not end within the buffer; what has more repairs than the list.
{ cat examples/sample.sdf && yes x | head -c 1100000; } >"$room/mend/long"
got ./capellanote mend "$room/mend/long"
is "mend: a record too long" 1 "" "long: record 6 too long"
{ head -n 9 examples/sample.sdf && yes "" | head -n 33000 && echo '$$$$'; } >"$room/mend/repairs"
got ./capellanote mend "$room/mend/repairs"
is "mend: more repairs than the list has room for" 1 "" "repairs, mended: refused 39"
got ./capellanote mend "$room/mend/none"
is "mend: no such file" 2 "" "none"

# The damaged example is mended and then accepted, and it is not written itself.
cp examples/damaged.sdf "$room/damaged.sdf"
got ./capellanote mend -o "$room/whole.sdf" "$room/damaged.sdf"
is "mend: the damaged example" 0 "" "$room/damaged.sdf:29: an empty line put before this line"
got ./capellanote check "$room/whole.sdf"
is "mend: the damaged example, mended, is accepted" 0 "$room/whole.sdf: accepted, 5 records" ""
if cmp -s examples/damaged.sdf "$room/damaged.sdf"; then ok; else bad "mend: the file itself" "it was written"; fi
