#!/usr/bin/env python3
"""Brings the names of this repository's definitions and lemmas to the spelling of today's Rattle.

usage: tools/respell.py [--list]      at the top of the repository, once, after port.py and before any edit by hand

A name that this repository declares in specs/ or proofs/ and that has a dash, or capitals behind a small first letter, gets
underscores and small letters: firstFrom is first_from, first-hit is first_hit. Names from src/, those that Rattle makes and
those of the library keep their spelling, and so do types and modules. It goes by whole words, in .antt files, in the code of
.rt files, in must-fail edits, and between backticks in comments and pages. A lemma that would come to its
definition's name gets _lem behind it. It writes 'falls together: ..' where two names of one file would still be one. --list prints the table and changes nothing.
"""

import collections
import glob
import re
import sys

WORD = r"[^\s(){}\[\];,.\"«»`\\|:]+"
# A text, a comment, a word, or any other sign.
PIECES = re.compile(r'"(?:[^"\\\n]|\\.)*"|(?<![^\s(){}])--(?=[\s-]|$)[^\n]*|' + WORD + r"|.", re.S)
RUST = re.compile(r'//[^\n]*|b?"(?:[^"\\]|\\.)*"|b?\'(?:[^\'\\\n]|\\.)\'|[A-Za-z_][\w\'′₀₁₂-]*|.', re.S)
HEAD = re.compile(r"^\s*(?:where\s+)?(?:(?:unfoldable|abbrev|pub)\s+)*(?:(?:data|record|ruleset|module)\s+)?(?:pub\s+)?((?:%s\s+)*%s)\s*(?:[({].*)?[:=]" % (WORD, WORD))
LIBRARY = re.compile(r"^\s*(?:ghost |pub )*use (?!Rattle\.(?!std\b|core\b))([\w.·+-]+?)\.?\{([^}]*)\}", re.M)


# Fields of records, which no word beside them can be taken for.
FIELDS = {"mass-difference", "charge-code", "hydrogen-count", "stereo-care", "atom-map", "exact-change"}


def snake(name):
    kept = name.strip("_")
    if kept[:1].isupper():
        return name
    name = re.sub(r"(?<=[^\W_])-(?=[^\W_])", "_", name)
    return re.sub(r"(?<=[^\W_])([A-Z]+)", lambda m: "_" + m.group(1).lower(), name)


def wants(name):
    return snake(name) != name


def declared(text):
    for line in text.split("\n"):
        if re.search(r": (?:tie|goal)\.", line) or line.lstrip().startswith(("use ", "--", "mod ", "pub mod ", "pub use ")):
            continue
        m = HEAD.match(line)
        if m:
            for word in m.group(1).split():
                yield from [p for p in word.split("◌") if p] if "◌" in word else [word]
        for m in re.finditer(r"(?:\blet|;|λ|\() *((?:%s +)*%s) *[:=]" % (WORD, WORD), line):
            yield from m.group(1).split()
        # parameters and patterns: each word on the left of an equation that is followed by nothing of the library's
        m = re.match(r"^\s*(%s(?: +[^=:]*)?) =(?: |$)" % WORD, line)
        if m:
            yield from re.findall(WORD, m.group(1))


def table():
    antt = sorted(glob.glob("crates/*/specs/**/*.antt", recursive=True) + glob.glob("crates/*/proofs/**/*.antt", recursive=True))
    names, library, lemmas = collections.Counter(), set(), set()
    for path in antt:
        text = open(path, encoding="utf-8").read()
        for m in LIBRARY.finditer(text):
            for item in m.group(2).split(","):
                library.update(re.findall(WORD, item.split(" as ")[0]))
        if path.endswith("/Proof.antt") and "Tie as tie" in text:
            # what a proof by hand declares for itself beside its goals
            names.update(n for n in declared(text) if wants(n))
            continue
        names.update(n for n in declared(text) if wants(n))
        lemmas.update(n for n in declared(text) if "_" in n)
    to = {n: snake(n) for n in names if n not in library and not n.startswith(("+", "Need-"))}
    # A lemma that would have its definition's name, or another word's of a file, gets _lem.
    defined = {new for old, new in to.items() if "-" not in old}
    clash = {old for old, new in to.items() if "-" in old and new in defined}
    words = {}
    for path in antt + sorted(glob.glob("crates/*/src/**/*.rt", recursive=True)):
        words[path] = set(re.findall(WORD, open(path, encoding="utf-8").read()))
        if path.endswith("/Proof.antt"):
            continue
        for old in words[path] & to.keys():
            if "-" in old and to[old] in words[path]:
                clash.add(old)
    for old in clash - FIELDS:
        to[old] += "_lem"
    # One that port.py respelled already, beside a definition that comes to the same name.
    for path, those in words.items():
        if path.endswith(".antt") and not path.endswith("/Proof.antt"):
            for old in those & to.keys():
                new = to[old]
                if "-" not in old and new in those and new in lemmas:
                    to[new] = new + "_lem"
    for path, those in words.items():
        back = collections.defaultdict(set)
        for w in those:
            back[to.get(w, w)].add(w)
        for new, olds in back.items():
            if len(olds) > 1:
                print("falls together: %s: %s" % (path, " ".join(sorted(olds))))
    return to


def in_ticks(text, to):
    def turn(m):
        return "`" + "".join(to.get(w, w) for w in PIECES.findall(m.group(1))) + "`"

    return re.sub(r"`([^`\n]+)`", turn, text)


def turned(word, to):
    """A word, or an operator part by part."""
    if "◌" in word and word not in to:
        return "◌".join(to.get(w, w) for w in word.split("◌"))
    return to.get(word, word)


def of_antt(text, to):
    out = []
    for p in PIECES.findall(text):
        out.append(in_ticks(p, to) if p.startswith("--") and len(p) > 2 else turned(p, to))
    # A constructor that the kit's script takes for a type.
    return "".join(out).replace("Takes.Value-line", "Takes.value_line")


def of_rust(text, to):
    out = []
    for p in RUST.findall(text):
        # A word that has the spelling already is a name of the source there.
        out.append(in_ticks(p, to) if p.startswith("//") else to[p] if p[:1] not in "\"'" and p in to and wants(p) else p)
    return "".join(out)


def main():
    to = table()
    if "--list" in sys.argv[1:]:
        for n in sorted(to):
            print(n, to[n])
        return
    for pattern, turn in (("crates/*/specs/**/*.antt", of_antt), ("crates/*/proofs/**/*.antt", of_antt), ("crates/*/src/**/*.rt", of_rust), ("crates/*/must-fail/*.edit", of_antt), ("docs/*.md", in_ticks), ("README.md", in_ticks)):
        for path in sorted(glob.glob(pattern, recursive=True)):
            text = open(path, encoding="utf-8").read()
            new = turn(text, to)
            if new != text:
                with open(path, "w", encoding="utf-8") as f:
                    f.write(new)


main()
