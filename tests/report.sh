# A delivery on one page: well formed, with the verbs' own figures, everything from a file as text, long tables cut; and in a browser, where one is.

mkdir "$room/report"
python3 - "$room/report/" <<'END'
import sys

room = sys.argv[1]
sample = open("examples/sample.sdf", "rb").read()

def record(title, lot, kind=b"  1"):
    return (title + b"\n\n\n  2  1  0  0  0  0  0  0  0  0999 V2000\n"
            + b"    0.0000    0.0000    0.0000 C   0  0  0  0  0  0  0  0  0  0  0  0\n"
            + b"    1.2500    0.0000    0.0000 O   0  0  0  0  0  0  0  0  0  0  0  0\n"
            + b"  1  2" + kind + b"  0  0  0  0\nM  END\n>  <SUPPLIER>\nABCD\n\n>  <LOT>\n" + lot + b"\n\n$$$$\n")

def put(name, text):
    with open(room + name, "wb") as file:
        file.write(text)

def event(kind, lot, quantity):
    return kind + b"ABCD" + lot.ljust(8) + bytes([quantity, 0])

put("thirty.sdf", b"".join(record(b"<script>alert(%d)</script>" % k if k % 33 == 0 else b"AB-%d" % k, b"%05d" % k, b"  9" if k % 33 == 0 else b"  1")
                           for k in range(990)))
put("clean.sdf", b"".join(record(b"AB-%d" % k, b"%05d" % (417 + k)) for k in range(3)))
put("last.sdf", b"".join(record(b"AB-%d" % k, b"%d" % 417 if k == 0 else b"%05d" % (417 + k)) for k in range(4)))
put("empty.sdf", b"")
put("many.sdf", b"x\n\n\nx\n$$$$\n" * 1200)
put("door.log", event(b"R", b"00417", 10) + event(b"C", b"00417", 8) + event(b"R", b"417", 5) + event(b"C", b"417", 9))
END

# The page's text between tags, and whether each tag is closed where it must be; a script or a name from elsewhere is an error.
cat >"$room/page.py" <<'END'
import sys
from html.parser import HTMLParser

class Page(HTMLParser):
    def __init__(self):
        super().__init__()
        self.open, self.text, self.wrong = [], [], []

    def handle_starttag(self, tag, attributes):
        if tag == "script" or any(name in ("src", "href", "onload", "onclick") for name, _ in attributes):
            self.wrong.append(tag)
        if tag not in ("meta", "br", "img"):
            self.open.append(tag)

    def handle_endtag(self, tag):
        if not self.open or self.open.pop() != tag:
            self.wrong.append("/" + tag)

    def handle_data(self, data):
        if "style" not in self.open:
            self.text.append(data)

page = Page()
page.feed(open(sys.argv[1], encoding="utf-8").read())
page.close()
print("wrong: %s" % (page.wrong + page.open))
print(" ".join(" ".join(page.text).split()))
END

# Makes a page, which must be well formed; its text is left in $room/text.
page_of() { # CASE STATUS WORDS...
    name=$1 want=$2
    shift 2
    rm -f "$room/report/page.html"
    got ./capellanote report -o "$room/report/page.html" "$@"
    is "$name" "$want" "" ""
    if [ -f "$room/report/page.html" ]; then
        python3 "$room/page.py" "$room/report/page.html" >"$room/text"
        if [ "$(head -n 1 "$room/text")" = "wrong: []" ]; then ok; else bad "$name" "not well formed: $(head -n 1 "$room/text")"; fi
    else
        bad "$name" "no page"
        : >"$room/text"
    fi
}

shows() { # CASE TEXT
    if grep -qF -- "$2" "$room/text"; then ok; else bad "$1" "the page does not show '$2'"; fi
}

page_of "a page of 990 records with 30 refused" 1 "$room/report/thirty.sdf"
shows "figures of the verdict" "1 file with 990 records: 960 accepted, 30 refused, 0 warnings."
shows "a title stays text" "<script>alert(33)</script>"
shows "what may stand there" "1 to 8"
shows "a refusal's bar" "8: "
shows "no bottles of a refused file" "0 records in the accepted files."
shows "the command for the figures" "capellanote check --all --json"
sum=$(sha256sum "$room/report/thirty.sdf" 2>/dev/null | cut -d ' ' -f 1)
[ -z "$sum" ] || shows "the file's digest" "$sum"

page_of "a clean delivery with its log and the last one" 1 --last "$room/report/last.sdf" --log "$room/report/door.log" --title "A & B <i>" "$room/report/clean.sdf"
shows "the title as text" "A & B <i>"
shows "a clean verdict" "1 file with 3 records: 3 accepted, 0 refused, 0 warnings. The delivery can be booked in as it is."
shows "what changed" "item 2, line 1 417 00417"
shows "a record gone" "records gone 1"
shows "bottles" "ABCD 3"
shows "a lot whose count differs" "count differs"
shows "paper minus shelf" "+2"
shows "a lot without a record" "no record"
shows "records never received" "Records never received: 2"

page_of "an empty file" 0 "$room/report/empty.sdf"
shows "an empty delivery" "The delivery holds no record"
shows "a warning in words" "Warning What stands there no records"

page_of "more refusals than a page shows" 1 "$room/report/many.sdf"
shows "the cut is said" "The first 1,000 of 1,200 are shown"

got ./capellanote report "$room/report/clean.sdf"
is "a page needs its name" 2 "" "report takes -o REPORT.html"
got ./capellanote report --last "$room/report/last.sdf" -o "$room/report/none.html" "$room/report/clean.sdf" "$room/report/clean.sdf"
is "the last delivery goes with one file" 2 "" "--last goes with one file"
if [ -e "$room/report/none.html" ]; then bad "no page where nothing is said" "it is there"; else ok; fi
got ./capellanote report -o "$room/report/none.html" "$room/report/nowhere.sdf"
is "a file that is not there" 2 "" "no such file"

# A record that is too long; names that look like options or are no UTF-8; standard input and a pipe; molfiles; a file that may not be read; a Python that
# breaks down. Where there is no page, standard error says why.
python3 - "$room/report/" <<'END'
import sys
sample = open("examples/sample.sdf", "rb").read()
record = sample[:sample.index(b"$$$$")]
open(sys.argv[1] + "long.sdf", "wb").write(record + (b">  <X>\n" + b"x" * 200 + b"\n\n") * 6000 + b"$$$$\n" + sample)
END
page_of "a record too long" 1 "$room/report/long.sdf"
shows "a record too long in words" "too long: the record does not end within 1,048,576 bytes"
shows "what lies behind a record too long" "5 accepted, 1 refused"
cp "$room/report/clean.sdf" "$room/report/-all.sdf"
(cd "$room/report" && "$OLDPWD/capellanote" report --last -all.sdf -o page.html -- -all.sdf) >"$room/out" 2>"$room/err"
status=$?
is "a name that looks like an option" 0 "" ""
odd_name=$(printf '%s/\351.sdf' "$room/report")
cp "$room/report/clean.sdf" "$odd_name"
page_of "a name that is no UTF-8" 0 "$odd_name"
cat "$room/report/clean.sdf" | ./capellanote report -o "$room/report/page.html" - >"$room/out" 2>"$room/err"
status=$?
is "standard input" 0 "" ""
python3 "$room/page.py" "$room/report/page.html" >"$room/text"
shows "standard input: its records" "1 file with 3 records: 3 accepted"
shows "standard input: its name" "capellanote check --all --json -"
page_of "a pipe" 0 <(cat "$room/report/clean.sdf")
sed -n 1,9p examples/sample.sdf >"$room/report/one.mol"
page_of "a molfile beside an SDfile" 0 "$room/report/one.mol" "$room/report/clean.sdf"
shows "a molfile's record" "2 files with 4 records: 4 accepted"
shows "a molfile's bottle" "no supplier named 1"
mkdir "$room/report/bin"
printf '#!/bin/sh\nexit 1\n' >"$room/report/bin/python3"
chmod +x "$room/report/bin/python3"
got env PATH="$room/report/bin:$PATH" ./capellanote report -o "$room/report/none.html" "$room/report/clean.sdf"
is "a Python that breaks down" 2 "" "no page is written"
chmod 755 "$room" "$room/report"
cp "$room/report/clean.sdf" "$room/report/closed.sdf"
chmod 0 "$room/report/closed.sdf"
as_reader() { if [ "$(id -u)" = 0 ]; then setpriv --reuid=65534 --regid=65534 --clear-groups "$@"; else "$@"; fi; }
if as_reader sh -c 'cd "$1" && cat capellanote "$2/clean.sdf"' sh "$PWD" "$room/report" >/dev/null 2>&1; then
    chmod 777 "$room/report"
    got as_reader ./capellanote report -o "$room/report/none.html" "$room/report/closed.sdf"
    is "a file that may not be read" 2 "" "closed.sdf: Permission denied"
fi
if [ -e "$room/report/none.html" ]; then bad "no page where there is no reason for one" "it is there"; else ok; fi

# A browser opens the page without a word on its console.
browser=$(command -v chromium || command -v chromium-browser) || browser=
if [ -n "$browser" ]; then
    page_of "a page for the browser" 1 --log "$room/report/door.log" "$room/report/thirty.sdf"
    HOME=$room timeout 120 "$browser" --headless --no-sandbox --disable-gpu --enable-logging=stderr --dump-dom "file://$room/report/page.html" >"$room/dom" 2>"$room/err"
    if grep -q "CONSOLE" "$room/err"; then bad "a browser" "$(grep CONSOLE "$room/err" | head -n 1)"; else ok; fi
    if grep -q "960 accepted" "$room/dom"; then ok; else bad "a browser" "it does not show the page"; fi
else
    echo "tests/report.sh: no chromium: the page was not opened in a browser"
fi
