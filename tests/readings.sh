# Readings, items and canonical text: what the second program writes, nothing of refused files, files that cannot be read twice.

python3 - "$room" <<'END'
import os, random, sys
sys.path.insert(0, "oracle")
from damage import damaged
from generate import file_rows, good_drafts, sized_record, to_bytes
from lines import Refusal
from printed import printed
rng = random.Random(17)
where = sys.argv[1] + "/files"
os.mkdir(where)
def put(name, data):
    with open(where + "/" + name, "wb") as file:
        file.write(data)
    verbs = [("read", "sdfile"), ("fetch", "A"), ("canon", "")] if name.endswith(".sdf") else [("read", "molfile")]
    for verb, word in verbs:
        try:
            text = printed(verb, word, data)
        except Refusal:
            if not name.startswith("bad"):
                raise
            text = b""
        with open(where + "/" + name + "." + verb, "wb") as file:
            file.write(text)
for k in range(24):
    put("good%02d.sdf" % k, to_bytes(rng, file_rows(rng, good_drafts(rng, 1), 1)))
    put("bad%02d.sdf" % k, damaged(rng, 1))
for k in range(8):
    put("good%02d.mol" % k, to_bytes(rng, file_rows(rng, good_drafts(rng, 0), 0)))
# Records around the buffer's size, with many small ones between them, over several buffers.
small, size = sized_record(rng, 700), 1048576
put("large.sdf", small * 900 + sized_record(rng, size) + small * 2000 + sized_record(rng, size - 1) + small)
# A record of the buffer's size whose canonical text is as long as it can be made: items of seven bytes.
head = b"\n\n\n  0  0%33s\nM  END\n" % b"V2000"
items = (size - len(head) - 5) // 7
rest = size - len(head) - 5 - 7 * items
put("grows.sdf", head + b"> <N>\n\n" * (items - 1) + b"> <N" + b"N" * rest + b">\n\n" + b"$$$$\n")
# Header lines that look like a record's last line.
put("dollars.sdf", (b"a\n$$$$\n$$$$  \n" + head[3:] + b"> <A>\n$$$\n\n$$$$ \n") * 2)
# Header lines that look like items, names within values, the name again, no values, no items, both line ends.
put("arrows.sdf", (b">  <A>\n> <A>\n>\n" + head[3:] + b"> <B>\n<A>\n>  <A\nA\n\n>   <A>  \r\n 1\r\n>2\n   \n> <A>\nlater\n\n$$$$\n"
                   + b">\n$\n\n" + head[3:] + b"$$$$  \r\n" + head.replace(b"\n", b"\r\n") + b"> <A>\r\n\r\n> <A>\nx\n\n$$$$\n") * 3)
END

wrote() { # EXPECTED COMMAND...
    expected=$1
    shift
    ./capellanote "$@" 2>"$room/err" | cmp -s - "$expected" && ok || bad "$*" "it did not write what the second program writes: $(head -c 300 "$room/err")"
}
for file in "$room"/files/*.sdf; do
    wrote "$file.read" read "$file"
    wrote "$file.fetch" fetch A "$file"
    wrote "$file.canon" canon "$file"
done
for file in "$room"/files/*.mol; do
    wrote "$file.read" read --molfile "$file"
done
python3 -c 'import json, sys
for line in open(sys.argv[1]): json.loads(line)' "$room/files/large.sdf.read" && ok || bad "read" "it is not JSON"

# Nothing of a refused file, and the refusal on standard error.
for task in read "fetch LOT" canon; do
    # shellcheck disable=SC2086
    got ./capellanote $task examples/damaged.sdf
    is "$task: refused" 1 "" "examples/damaged.sdf:29:1: refused 17: "
    # shellcheck disable=SC2086
    got ./capellanote $task "$room/longer.sdf"
    is "$task: too long" 1 "" "longer.sdf: record 3 too long"
    # shellcheck disable=SC2086
    got ./capellanote $task "$room/none.sdf"
    is "$task: missing" 2 "" "none.sdf: No such file or directory"
    # shellcheck disable=SC2086
    got ./capellanote $task "$room"
    is "$task: directory" 2 "" "Is a directory"
    # shellcheck disable=SC2086
    got ./capellanote $task "$room/empty.sdf"
    is "$task: empty" 0 "" ""
    # shellcheck disable=SC2086
    ./capellanote $task examples/sample.sdf >/dev/full 2>"$room/err"
    status=$?
    : >"$room/out"
    is "$task: standard output is full" 2 "" "standard output: No space left on device"
    # shellcheck disable=SC2086
    cat examples/sample.sdf | ./capellanote $task /dev/stdin >"$room/out" 2>"$room/err"
    status=$?
    piped=$(cat "$room/out")
    # shellcheck disable=SC2086
    got ./capellanote $task examples/sample.sdf
    is "$task: a pipe" 0 "$piped" ""
    # shellcheck disable=SC2086
    cat examples/sample.sdf | ./capellanote $task - >"$room/out" 2>"$room/err"
    status=$?
    is "$task: standard input" 0 "$piped" ""
done
got ./capellanote fetch LOT "$room/two words.sdf"
is "fetch: every record" 0 '{"record":1,"line":1,"value":["00417"]}
{"record":2,"line":14,"value":["00418"]}
{"record":3,"line":35,"value":["00419"]}
{"record":4,"line":56,"value":["00420"]}
{"record":5,"line":82,"value":["00421"]}' ""
got ./capellanote fetch EMPTY examples/sample.sdf
[ "$(sed -n 4p "$room/out")" = '{"record":4,"line":56,"value":[]}' ] && [ "$(sed -n 1p "$room/out")" = '{"record":1,"line":1,"value":null}' ] && ok || bad "fetch: no value lines, no item" "$(cat "$room/out")"
got ./capellanote fetch --progress LOT examples/sample.sdf
[ "$(sed -n 1p "$room/out")" = '{"record":1,"line":1,"value":["00417"]}' ] && ok || bad "fetch: with progress" "$(cat "$room/out" "$room/err")"
got ./capellanote canon examples/sample.sdf
cmp -s "$room/out" examples/sample.sdf && ok || bad "canon: the sample" "it is not written back as itself"

# A file that changes once the second reading has begun, at a place that it cannot reach before its output is read.
changes() { # HOW
    python3 - "$room/changing.sdf" "$1" "$room/large.sdf" <<'END'
import subprocess, sys
path, how, large = sys.argv[1:]
data = open(large, "rb").read()
with open(path, "wb") as file:
    file.write(data)
run = subprocess.Popen(["./capellanote", "read", path], stdout=subprocess.PIPE, stderr=subprocess.PIPE)
run.stdout.read(1)
with open(path, "r+b") as file:
    if how == "cut":
        file.truncate(len(data) // 2)
    else:
        file.seek(20 * 1048576)
        file.write(b"\n$$$$\n$$$$\n")
run.stdout.read()
print(run.stderr.read().decode())
sys.exit(run.wait())
END
}
for how in damaged cut; do
    got changes "$how"
    case "$status $(cat "$room/out")" in
    "2 "*"changed while it was read"*) ok ;;
    *) bad "read: a file that is $how while it is read" "status $status: $(cat "$room/out" "$room/err" | head -c 300)" ;;
    esac
done

# A sub-command that is not there.
got examples/compile --run target/bin/records tidy examples/sample.sdf
is "records: an unknown sub-command" 0 "" "records: no sub-command of this name"
