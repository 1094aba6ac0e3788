#!/usr/bin/env python3
"""report.py COMMAND TITLE LAST NAME LOG NAME [FILE NAME]...: a delivery on one page of HTML, on standard output. TITLE, LAST and LOG may be empty.

A file is read by its path, and named by the name behind it. Every figure comes from the command's own verbs with --json; this page counts their
lines and computes widths, nothing else. Whatever comes from a file is escaped. It needs Python 3 alone.
Status: 0 nothing to object to; 3 a record is refused or a lot differs; 2 no page, for a reason that is said.
"""

import hashlib
import html
import json
import os
import signal
import subprocess
import sys
import tempfile
from collections import Counter

MOST_ROWS = 1000        # of a table; what lies beyond is counted and said
CHUNK = 1 << 20

STYLE = """
:root { --ink: #1a1a1a; --soft: #555; --line: #bbb; --bar: #6b87a8; --bad: #a33; --good: #2c6e49; }
* { box-sizing: border-box; }
body { font: 16px/1.45 system-ui, "Helvetica Neue", Arial, sans-serif; color: var(--ink); background: #fff; margin: 0 auto; padding: 1rem; max-width: 62rem; }
h1 { font-size: 1.7rem; margin: .2rem 0 .6rem; overflow-wrap: anywhere; }
h2 { font-size: 1.25rem; margin: 2rem 0 .5rem; border-bottom: 2px solid var(--ink); padding-bottom: .15rem; }
h3 { font-size: 1rem; margin: 1.2rem 0 .3rem; }
p { margin: .4rem 0; }
.verdict { font-size: 1.12rem; border-left: .5rem solid var(--good); padding: .5rem .8rem; background: #f4f4f4; }
.verdict.bad { border-left-color: var(--bad); border-left-style: double; }
table { border-collapse: collapse; width: 100%; margin: .4rem 0; font-size: .92rem; }
th, td { text-align: left; vertical-align: top; padding: .25rem .5rem; border-bottom: 1px solid var(--line); overflow-wrap: break-word; }
td code { overflow-wrap: anywhere; }
th { border-bottom: 2px solid var(--ink); overflow-wrap: normal; }
td.n, th.n { text-align: right; font-variant-numeric: tabular-nums; white-space: nowrap; }
code, pre { font-family: ui-monospace, "DejaVu Sans Mono", Consolas, monospace; font-size: .92em; }
code { background: #f1f1f1; padding: 0 .15em; }
code .unseen { color: var(--soft); }
pre { margin: .3rem 0; padding: .3rem .5rem; background: #f6f6f6; border: 1px solid var(--line); overflow-x: auto; }
.bars td, .bars th { border: 0; padding: .12rem .5rem; font-weight: 400; }
tr.quoted td { border-bottom: 1px solid var(--line); padding-top: 0; }
tr.facts td { border-bottom: 0; }
.bar { display: inline-block; height: .95em; min-width: 2px; vertical-align: -0.1em; background: var(--bar); border: 1px solid var(--ink); }
.cell { width: 45%; }
.balance { display: flex; width: 12rem; max-width: 100%; }
.balance > span { flex: 1 1 50%; display: flex; border-right: 1px solid var(--ink); justify-content: flex-end; }
.balance > span + span { border-right: 0; justify-content: flex-start; }
.balance .bar { background: repeating-linear-gradient(45deg, var(--bar) 0 3px, #fff 3px 6px); }
.mark { font-weight: 700; }
summary { cursor: pointer; font-weight: 600; padding: .2rem 0; }
footer { margin-top: 2.5rem; border-top: 2px solid var(--ink); font-size: .88rem; color: var(--soft); }
footer code { color: var(--ink); }
@media (max-width: 40rem) { body { padding: .6rem; font-size: 15px; } .cell { width: 35%; }
  .stack thead { position: absolute; left: -99rem; } .stack, .stack caption, .stack tbody, .stack tr, .stack td { display: block; width: 100%; }
  .stack tr { border-bottom: 1px solid var(--ink); padding: .3rem 0; } .stack tr.facts { border-bottom: 0; } .stack td, .stack td.n { border: 0; text-align: left; padding: .1rem .2rem; white-space: normal; }
  .stack td[data-head]::before { content: attr(data-head) ": "; font-weight: 600; } .stack td:empty { display: none; } }
@media print { @page { size: A4; margin: 16mm 14mm; } body { max-width: none; padding: 0; font-size: 10.5pt; } details > summary { list-style: none; } details::details-content { content-visibility: visible; block-size: auto; }
  pre { font-size: 7.5pt; overflow: visible; white-space: pre; } tr, pre, .verdict { break-inside: avoid; } tr.facts { break-after: avoid; } h2, h3 { break-after: avoid; } thead { display: table-header-group; } .bar { print-color-adjust: exact; -webkit-print-color-adjust: exact; } }
"""


def die(words):
    sys.stderr.write("capellanote: %s\n" % words)
    sys.exit(2)


# ---- What the verbs say

NAMES = {}              # of files by their paths, where these are others


def named(path):
    return NAMES.get(path, path)


def operand(path):
    """A path that no verb takes for an option."""
    return "./" + path if path.startswith("-") else path


def spoken(words):
    """A command line as a person would type it."""
    def quoted(word):
        plain = word and all(c.isalnum() or c in "-_./=+:@%," for c in word)
        return word if plain else "'" + word.replace("'", "'\\''") + "'"
    return " ".join(map(quoted, words))


class Verb:
    """A run of a verb: its objects one by one, then its status and what it wrote to standard error."""

    def __init__(self, command, *words):
        self.command, self.words = command, words
        self.status, self.errors = None, ""

    def objects(self):
        with tempfile.TemporaryFile() as errors:
            try:
                run = subprocess.Popen([self.command, *self.words], stdout=subprocess.PIPE, stderr=errors)
            except OSError as trouble:
                die("%s cannot be run: %s" % (self.command, trouble.strerror))
            for line in run.stdout:
                yield json.loads(line.decode("utf-8", "surrogateescape"))
            self.status = run.wait()
            errors.seek(0)
            self.errors = errors.read().decode("utf-8", "replace")
        if self.status not in (0, 1, 2):
            die("%s ended with status %d: %s" % (self.said(), self.status, self.errors.strip()))

    def said(self):
        return spoken(["capellanote", *map(named, self.words)])


def meaning(command, number, known={}):
    """The plain words of a refusal's number, which is the first line that `explain` says."""
    if number not in known:
        run = subprocess.run([command, "explain", str(number)], stdout=subprocess.PIPE, stderr=subprocess.DEVNULL)
        first = run.stdout.decode("utf-8", "replace").split("\n")[0]
        known[number] = first.split(": ", 1)[-1]
    return known[number]


class Kept:
    """Rows of a table up to the most that a page shows, and how many there are in all."""

    def __init__(self):
        self.rows, self.count = [], 0

    def add(self, row):
        self.count += 1
        if self.count <= MOST_ROWS:
            self.rows.append(row)


# ---- Text that comes from files

def escaped(text):
    return html.escape(str(text), quote=True)


def code(text):
    """A text with every byte visible: spaces as a raised dot, whatever is not printable by its number."""
    if text is None:
        return "<em>nothing</em>"
    shown = []
    for c in str(text):
        if c == " ":
            shown.append('<span class="unseen">\u00b7</span>')
        elif "!" <= c <= "~":
            shown.append(escaped(c))
        else:
            number = ord(c) - 0xDC00 if 0xDC80 <= ord(c) <= 0xDCFF else ord(c)
            shown.append('<span class="unseen">\\x%02x</span>' % number)
    return "<code>%s</code>" % ("".join(shown) or '<span class="unseen">(empty)</span>')


def marked(text, column):
    """A quoted line, with a mark under the column."""
    line = "".join(c if " " <= c <= "~" else "?" for c in str(text))
    return "<pre>%s\n%s^</pre>" % (escaped(line), " " * max(0, column - 1))


def counted(count, word):
    return "%s %s" % (format(count, ","), word if count == 1 else word + "s")


# ---- Parts of the page

def table(caption, heads, rows, numbers=()):
    """Rows of ready cells, and behind a row perhaps what is quoted below it; `numbers` are the columns with figures."""
    def kind(k):
        return ' class="n"' if k in numbers else ""
    head = "".join('<th scope="col"%s>%s</th>' % (kind(k), name) for k, name in enumerate(heads))
    body = []
    for row in rows:
        cells, quoted = row[:len(heads)], "".join(row[len(heads):])
        body.append("<tr%s>%s</tr>\n" % (' class="facts"' if quoted else "", "".join(
            '<td%s data-head="%s">%s</td>' % (kind(k), heads[k], cell) for k, cell in enumerate(cells))))
        if quoted:
            body.append('<tr class="quoted"><td colspan="%d">%s</td></tr>\n' % (len(heads), quoted))
    return '<table class="stack"><caption class="mark" style="text-align:left">%s</caption><thead><tr>%s</tr></thead><tbody>\n%s</tbody></table>\n' % (
        caption, head, "".join(body))


def folded(title, kept, body):
    """A table that folds where it is long, with a sentence where it is cut."""
    cut = "<p>The first %s of %s are shown; the command at the foot lists all.</p>" % (format(MOST_ROWS, ","), format(kept.count, ",")) if kept.count > MOST_ROWS else ""
    opened = "" if kept.count > 40 else " open"
    return "<details%s><summary>%s</summary>\n%s%s</details>\n" % (opened, title, body, cut)


def bars(caption, rows):
    """Rows of a label in HTML and a count, each with a bar as wide as its share of the largest."""
    most = max((count for _, count in rows), default=0) or 1
    body = "".join('<tr><th scope="row">%s</th><td class="n">%s</td><td class="cell">%s</td></tr>\n' % (
        label, format(count, ","), '<span class="bar" style="width:%.1f%%"></span>' % (100 * count / most) if count else "") for label, count in rows)
    return '<table class="bars"><caption class="mark" style="text-align:left">%s</caption><tbody>\n%s</tbody></table>\n' % (caption, body)


def balance(difference, most):
    """A difference drawn left or right of a line."""
    width = 100 * abs(difference) / most if most else 0
    bar = '<span class="bar" style="width:%.1f%%"></span>' % width
    return '<div class="balance" aria-hidden="true"><span>%s</span><span>%s</span></div>' % (bar if difference < 0 else "", bar if difference > 0 else "")


# ---- The verdict

class Checked:
    """What `check --all --json` says."""

    def __init__(self, command, files):
        self.verb = Verb(command, "check", "--all", "--json", *map(operand, files))
        self.refusals, self.warnings, self.files = Kept(), Kept(), []
        self.command, self.numbers = command, Counter()
        for told in self.verb.objects():
            if "number" in told:
                self.refusals.add(told)
                self.numbers[told["number"]] += 1
            elif "warning" in told:
                self.warnings.add(told)
            elif "verdict" in told and "file" in told:
                self.files.append(told)
        if self.verb.status == 2:
            sys.stderr.write(self.verb.errors)
            die("no page, for a file was not read")

    def sum(self, name):
        return sum(told.get(name) or 0 for told in self.files)

    def unread(self):
        return [told for told in self.files if told["verdict"] not in ("accepted", "refused", "too long")]

    def sentence(self):
        refused, accepted, records = self.sum("refused"), self.sum("accepted"), self.sum("records")
        unread = len(self.unread())
        words = "%s with %s: %s accepted, %s refused, %s." % (
            counted(len(self.files), "file"), counted(records, "record"), format(accepted, ","), format(refused, ","), counted(self.warnings.count, "warning"))
        if unread:
            words += " %s could not be read: nothing is known of %s." % (counted(unread, "file"), "it" if unread == 1 else "them")
        if refused or any(told["verdict"] != "accepted" for told in self.files):
            words += " Hold the order: send the table of refused records to the supplier and ask for the delivery again."
        elif not records:
            words += " The delivery holds no record: ask the supplier whether that is meant."
        elif self.warnings.count:
            words += " The delivery can be booked in; look at the warnings first."
        else:
            words += " The delivery can be booked in as it is."
        bad = refused or unread or not records or any(told["verdict"] != "accepted" for told in self.files)
        return '<p class="verdict%s"><strong>%s</strong> %s</p>\n' % (" bad" if bad else "", "Refused." if bad and records else "Empty." if bad else "Accepted.", escaped(words))

    def section(self, several):
        parts = ["<h2>Refused records</h2>\n"]
        if not self.refusals.count:
            parts.append("<p>None.</p>\n")
        else:
            rows = [(self.words_of(number), count) for number, count in sorted(self.numbers.items(), key=lambda row: row[0] or 0)]
            parts.append(bars("Refused records by the number of the refusal", rows))
            parts.append(folded("What to ask the supplier for, record by record", self.refusals, self.refusal_table(several)))
        if self.warnings.count:
            rows = [[*([code(named(told.get("file")))] if several else []), told.get("record", ""), told.get("line", ""), escaped(told.get("message") or told["warning"]),
                     code(told["text"]) if "text" in told else ""]
                    for told in self.warnings.rows]
            heads = [*(["File"] if several else []), "Record", "Line", "Warning", "What stands there"]
            parts.append("<h2>Warnings</h2>\n<p>Warnings change no verdict.</p>\n" + folded(
                "%s" % counted(self.warnings.count, "warning"), self.warnings, table("Warnings", heads, rows, (len(heads) - 4, len(heads) - 3))))
        return "".join(parts)

    def words_of(self, number, message=None):
        """A refusal by its number; a record that is too long has none."""
        if number is None:
            return "too long: the record does not end within 1,048,576 bytes"
        return "%d: %s" % (number, escaped(message or meaning(self.command, number)))

    def refusal_table(self, several):
        rows = []
        for told in self.refusals.rows:
            stands = code(told["found"]) if told.get("found") is not None else ""
            if told.get("field"):
                stands = "%s: %s" % (escaped(told["field"]), stands)
            may = told.get("allowed") or told.get("expected") or ""
            quoted = marked(told["text"], told.get("column") or 1) if told.get("text") is not None else ""
            place = "%s:%s" % (told["line"], told["column"]) if told["column"] else told["line"]
            rows.append([*([code(named(told.get("file")))] if several else []), told.get("record") or "", code(told.get("title")), place,
                         self.words_of(told["number"], told.get("message")), stands, escaped(may),
                         escaped(told.get("ask") or ""), quoted])
        heads = [*(["File"] if several else []), "Record", "Title", "Line", "Refused", "What stands there", "What may stand there", "Ask for"]
        return table("Refused records", heads, rows, (len(heads) - 7, len(heads) - 5))


# ---- What changed

PART_WORDS = {"header": "header line", "atoms": "number of atoms", "bonds": "number of bonds", "chiral": "chiral", "atom": "atom", "bond": "bond",
              "name": "item's name", "value": "value line", "item": "item on one side only", "record": "record on one side only"}


class Changes:
    """What `compare --json` says of the last delivery and this one."""

    def __init__(self, command, old, new):
        self.verb = Verb(command, "compare", "--json", operand(old), operand(new))
        self.kept, self.parts, self.only = Kept(), Counter(), Counter()
        self.changed, before = 0, None
        for told in self.verb.objects():
            if "part" not in told:
                continue
            self.kept.add(told)
            if told["part"] == "record":
                self.only[told["only"]] += 1
            else:
                self.parts[told["part"]] += 1
                self.changed += told["record"] != before
                before = told["record"]

    def section(self):
        head = "<h2>What changed since the last delivery</h2>\n"
        if self.verb.status == 2:
            return head + "<p>The comparison says nothing: %s</p>\n" % escaped(self.verb.errors.strip() or "one of the files is not good")
        if not self.kept.count:
            return head + "<p>Nothing: both deliveries have the same reading.</p>\n"
        rows = [("records new", self.only["new"]), ("records gone", self.only["old"]), ("records changed", self.changed)]
        parts = [head, bars("Records, by their place in the file", rows)]
        if self.parts:
            parts.append(bars("Parts that differ", [(PART_WORDS[part], self.parts[part]) for part in PART_WORDS if self.parts[part]]))
        body = [[told["record"], escaped(where(told)), *sides(told)] for told in self.kept.rows]
        parts.append(folded("Old and new side by side", self.kept, table("Differences", ["Record", "What", "Old", "New"], body, (0,))))
        return "".join(parts)


def where(told):
    part = told["part"]
    if part in ("atom", "bond"):
        return "%s %s, %s" % (part, told["number"], told["field"].replace("_", " "))
    if part == "value":
        return "item %s, line %s" % (told["item"], told["line"])
    if part in ("name", "item"):
        return "item %s%s" % (told["item"], ", name" if part == "name" else "")
    return "header line %s" % told["line"] if part == "header" else PART_WORDS[part] if part != "record" else "record"


def sides(told):
    if "only" in told:
        return ["only here" if told["only"] == "old" else "", "only here" if told["only"] == "new" else ""]
    return [code(told["old"]), code(told["new"])]


# ---- Bottles per supplier

class Suppliers:
    """What `tally --json` says."""

    def __init__(self, command, files):
        self.verb = Verb(command, "tally", "--json", *map(operand, files))
        self.rows, self.foot = [], {}
        for told in self.verb.objects():
            if "supplier" in told:
                self.rows.append((code(told["supplier"]), told["count"]))
            elif "total" in told:
                self.foot = told

    def section(self):
        head = "<h2>Bottles per supplier</h2>\n"
        if not self.foot:
            return head + "<p>The tally says nothing: %s</p>\n" % escaped(self.verb.errors.strip())
        rows = self.rows + [("<em>no supplier named</em>", self.foot["missing"])]
        text = bars("Records of the accepted files", rows) + "<p>%s in the accepted files.</p>\n" % counted(self.foot["total"], "record")
        if self.foot.get("refused"):
            text += "<p>%s not counted, for %s refused.</p>\n" % (
                counted(self.foot["refused"], "file"), "it is" if self.foot["refused"] == 1 else "they are")
        return head + text


# ---- The log against the catalogue

class Stock:
    """What `stock --json` says."""

    def __init__(self, command, log, files):
        self.verb = Verb(command, "stock", "--json", operand(log), *map(operand, files))
        self.lots, self.never, self.keyless, self.foot, self.most = Kept(), Kept(), Kept(), {}, 0
        for told in self.verb.objects():
            if "lots" in told:
                self.foot = told
            elif "paper" in told:
                self.lots.add(told)
                self.most = max(self.most, abs(told.get("difference") or 0))
            elif told.get("never_received"):
                self.never.add(told)
            elif "no_key" in told:
                self.keyless.add(told)

    def lot_table(self):
        rows = []
        for told in self.lots.rows:
            difference, records = told.get("difference"), told.get("records") or 0
            marks = [word for word, is_so in (("count differs", difference), ("no record", not records)) if is_so]
            drawn = balance(difference, self.most) + "<span>%+d</span>" % difference if difference else ("0" if difference == 0 else "not counted")
            rows.append([code(told["supplier"]), code(told["lot"]), told["paper"], "" if told.get("counted") is None else told["counted"], drawn, records,
                         "<strong>%s</strong>" % ", ".join(marks) if marks else ""])
        return table("Lots of the store; a difference is paper minus shelf", ["Supplier", "Lot", "Paper", "Last count", "Difference", "Records", "To look at"], rows, (2, 3, 5))

    def section(self):
        head = "<h2>The scanner log against the delivery</h2>\n"
        if not self.foot:
            return head + "<p>The join says nothing: %s</p>\n" % escaped(self.verb.errors.strip())
        foot = self.foot
        text = "<p>%s with %s on paper; %s of the delivery: %s received, %s never received, %s without a key.</p>\n" % (
            counted(foot["lots"], "lot"), format(foot["paper"], ","), counted(foot["records"], "record"),
            *(format(foot[name], ",") for name in ("received", "never_received", "no_key")))
        text += folded("Lots", self.lots, self.lot_table())
        if self.never.count:
            rows = [[code(named(told["file"])), told["record"], code(told["supplier"]), code(told["lot"])] for told in self.never.rows]
            text += folded("Records never received: %s" % format(self.never.count, ","), self.never,
                           table("Records whose lot the log never received", ["File", "Record", "Supplier", "Lot"], rows, (1,)))
        if self.keyless.count:
            rows = [[code(named(told["file"])), told["record"], escaped(told["no_key"])] for told in self.keyless.rows]
            text += folded("Records without a key: %s" % format(self.keyless.count, ","), self.keyless,
                           table("Records that cannot be looked up", ["File", "Record", "Why"], rows, (1,)))
        return head + text


# ---- The whole page

def foot(command, files, verbs):
    version = subprocess.run([command, "--version"], stdout=subprocess.PIPE, stderr=subprocess.DEVNULL).stdout.decode("utf-8", "replace").strip()
    rows = []
    for name in files:
        digest, size = hashlib.sha256(), 0
        try:
            with open(name, "rb") as file:
                for part in iter(lambda: file.read(CHUNK), b""):
                    digest.update(part)
                    size += len(part)
        except OSError as trouble:
            die("%s: %s" % (named(name), trouble.strerror))
        rows.append([code(named(name)), format(size, ","), "<code>%s</code>" % digest.hexdigest()])
    text = table("Files", ["Name", "Bytes", "SHA-256"], rows, (1,))
    text += "<h3>The same figures, to check</h3>\n<ul>%s</ul>\n" % "".join("<li><code>%s</code></li>" % escaped(verb.said()) for verb in verbs)
    return "<footer>\n<h2>How this page was made</h2>\n%s<p>%s, Python %s.</p>\n</footer>\n" % (text, escaped(version or "capellanote"), sys.version.split()[0])


def page(command, asked):
    several = len(asked["files"]) > 1
    checked = Checked(command, asked["files"])
    suppliers = Suppliers(command, asked["files"])
    parts, verbs, others = [checked.sentence(), checked.section(several)], [checked.verb], []
    status = checked.verb.status
    if asked["last"]:
        changes = Changes(command, asked["last"], asked["files"][0])
        parts.append(changes.section())
        verbs.append(changes.verb)
        others.append(asked["last"])
    parts.append(suppliers.section())
    verbs.append(suppliers.verb)
    if asked["log"]:
        stock = Stock(command, asked["log"], asked["files"])
        parts.append(stock.section())
        verbs.append(stock.verb)
        others.append(asked["log"])
        status = max(status, 1 if stock.verb.status else 0)
    title = escaped(asked["title"] or "Delivery: %s" % ", ".join(os.path.basename(named(name)) for name in asked["files"]))
    text = '<!DOCTYPE html>\n<html lang="en">\n<head>\n<meta charset="utf-8">\n<meta name="viewport" content="width=device-width, initial-scale=1">\n'
    text += "<title>%s</title>\n<style>%s</style>\n</head>\n<body>\n<main>\n<h1>%s</h1>\n%s</main>\n%s</body>\n</html>\n" % (
        title, STYLE, title, "".join(parts), foot(command, asked["files"] + others, verbs))
    return text, 3 if status else 0


def main(command, title, *words):
    paths, names = words[0::2], words[1::2]
    NAMES.update((path, name) for path, name in zip(paths, names) if path != name)
    last, log, files = paths[0], paths[1], paths[2:]
    asked = {"last": last, "log": log, "title": title, "files": list(files)}
    if last and len(files) > 1:
        die("report: --last goes with one file, since a comparison takes two")
    for name in [*files, *filter(None, (last, log))]:
        if not os.path.isfile(name):
            die("%s: %s" % (named(name), "not a file that can be read several times" if os.path.exists(name) else "no such file"))
    signal.signal(signal.SIGPIPE, signal.SIG_DFL)
    text, status = page(command, asked)
    try:
        sys.stdout.buffer.write(text.encode("utf-8", "backslashreplace"))
        sys.stdout.buffer.flush()
    except OSError as trouble:
        die("the page cannot be written: %s" % trouble.strerror)
    return status


if __name__ == "__main__":
    if len(sys.argv) < 9 or len(sys.argv) % 2 == 0:
        die("report.py is called by the verb report")
    sys.exit(main(*sys.argv[1:]))
