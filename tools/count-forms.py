#!/usr/bin/env python3
# count-forms.py [POINT ..] [--places] [--at COMMIT]: counts the places of each form that docs/DESIGN-PASS.md lists,
# in crates/*/src (and, for point 8, crates/*/proofs). Run it at the top of the repository. Without --at it reads
# the checkout; with --at it reads that commit. With --places it names them.
import difflib
import re
import subprocess
import sys
from collections import Counter, defaultdict
from itertools import combinations

PROGRAMS = ("program_", "counter", "check_files", "mend_files", "records")


def files(commit, pattern):
    if commit:
        names = subprocess.check_output(["git", "ls-tree", "-r", "--name-only", commit, "crates"], text=True).split()
    else:
        names = subprocess.check_output(["git", "ls-files", "crates"], text=True).split()
    for name in sorted(n for n in names if re.fullmatch(pattern, n)):
        if commit:
            yield name, subprocess.check_output(["git", "show", f"{commit}:{name}"], text=True)
        else:
            try:
                yield name, open(name).read()
            except FileNotFoundError:
                pass


def crate_of(name):
    return name.split("/")[1]


def is_program(crate):
    return crate.startswith(PROGRAMS[0]) or crate in PROGRAMS[1:]


def blank(s):
    """Comments and the insides of texts and characters out, places kept."""
    def out(m):
        t = m.group()
        if t[0] == "/":
            return " " * len(t)
        return t[0] + re.sub(r"[^\n]", "_", t[1:-1]) + t[-1]
    return re.sub(r"""//[^\n]*|"(?:\\.|[^"\\])*"|'(?:\\.|[^'\\])'""", out, s)


def block(s, i):
    """The end of the block whose `{` is at i."""
    d = 0
    while i < len(s):
        d += (s[i] == "{") - (s[i] == "}")
        i += 1
        if d == 0:
            return i
    return i


class Fn:
    """A function: its name, signature, clauses and body."""

    def __init__(self, crate, name, sig, clauses, body):
        self.crate, self.name, self.sig, self.clauses, self.body = crate, name, sig, clauses, body

    @property
    def place(self):
        return f"{self.crate}: {self.name}"


def functions(crate, s):
    s = blank(s)
    for m in re.finditer(r"(?m)^[ ]*((?:pub(?:\([a-z]+\))? )?(?:extern \"[^\"]*\" )?)fn (\w+)", s):
        i = m.end()
        depth = 0
        # The signature ends at the first `requires`, `ensures` or `{` outside brackets.
        j = i
        while j < len(s):
            c = s[j]
            depth += (c in "([") - (c in ")]")
            if depth == 0 and (c == "{" or c == ";" or re.match(r"\b(requires|ensures|allows|where)\b", s[j:j + 9])):
                break
            j += 1
        sig = s[i:j].strip()
        clauses = []
        while True:
            k = re.compile(r"\s*(requires|ensures|allows|decreases|measure)\b\s*(\w*)\s*").match(s, j)
            if not k or s[k.end():k.end() + 1] != "{":
                break
            e = block(s, k.end())
            clauses.append((k.group(1), k.group(2), " ".join(s[k.end() + 1:e - 1].split())))
            j = e
        k = s.find("{", j)
        if k < 0 or s[j:k].strip():
            continue
        e = block(s, k)
        yield Fn(crate, m.group(2), " ".join(sig.split()), clauses, s[k:e])


def enums(crate, s):
    s = blank(s)
    for m in re.finditer(r"\benum\s+(\w+)[^{]*\{", s):
        e = block(s, m.end() - 1)
        yield m.group(1), " ".join(s[m.end():e - 1].split())


def read(commit):
    fns, ens, texts = [], [], []
    for name, s in files(commit, r"crates/[^/]+/src/.*\.rt"):
        crate = crate_of(name)
        fns += functions(crate, s)
        ens += [(crate, n, b) for n, b in enums(crate, s)]
        texts.append((crate, name, s))
    return fns, ens, texts


def split(t, at=","):
    out, d, last = [], 0, 0
    for i, c in enumerate(t):
        d += (c in "([{<") - (c in ")]}>" and t[i - 1:i + 1] not in ("->", "=>"))
        if c == at and d == 0:
            out.append(t[last:i].strip())
            last = i + 1
    return [x for x in out + [t[last:].strip()] if x]


def params(sig):
    """The parameters of a signature, each as (name, type)."""
    i = sig.find("(")
    d = 0
    for j in range(i, len(sig)):
        d += (sig[j] == "(") - (sig[j] == ")")
        if d == 0:
            break
    out = []
    for p in split(sig[i + 1:j]):
        if ":" in p:
            name, kind = p.split(":", 1)
            out.append((name.replace("mut ", "").strip(), kind.strip()))
    return out


def result(sig):
    m = re.search(r"\)\s*->\s*(.*)$", sig)
    return m.group(1).strip() if m else ""


# 1 -------------------------------------------------------------------------------------------------------------------
def shape(body):
    """The shape of an enum: of Option, of Result with what refusal, of another type of std, or its own."""
    vs = [re.match(r"(\w+)\s*(.*)", re.sub(r"#\[[^\]]*\]", "", v).strip()).groups() for v in split(body)]
    bare = [n for n, p in vs if not p]
    names = {n for n, _ in vs}
    if names in ({"Next", "End"}, {"More", "End"}, {"End", "On"}, {"Behind", "On"}, {"Line", "Over"}):
        return "ControlFlow"
    if names == {"Before", "Same", "After"}:
        return "Ordering"
    if names == {"Here", "New"}:
        return "Result of binary_search"
    if names == {"MayEnd", "Owes"}:
        return "bool"
    refusals = [(n, p) for n, p in vs if re.search(r"\bno: u8\b", p) or (n in ("Refused", "No") and "u8" in p)]
    failures = [(n, p) for n, p in vs if p and n in ("Failed", "LeftFailed", "RightFailed", "Wrong")]
    if refusals:
        p = refusals[0][1]
        what = "no, line, column" if "line" in p else "no, column" if "column" in p else "no"
        values = len(vs) - len(refusals)
        return f"Result with {{{what}}}" + ("" if values == 1 else f", {values} other variants")
    if failures:
        return f"Result with {'/'.join(n for n, _ in failures)}, {len(vs) - len(failures)} other variants"
    if len(bare) == len(vs):
        return "names alone"
    if len(vs) == 2 and len(bare) == 1:
        return "Option"
    if len(vs) == 3 and len(bare) == 2:
        return "Result with two bare refusals"
    return "sum of its own"


LITERAL = re.compile(r"\bno: (\d+)|\b(?:Refused|No)\((\d+)\)")


def point1(fns, ens, texts, show):
    t = Tally("1a enums of the shape of Option, Result or another type of std", show)
    rest = Tally("1a enums of their own shape, no place of this point", show)
    for crate, name, body in ens:
        s = shape(body)
        (rest if s in ("names alone", "sum of its own") else t).add(s, crate, name)
    t.tell()
    rest.tell()
    t = Tally("1b flags and values beside one another", show)
    for f in fns:
        r = result(f.sig)
        b = " ".join(f.body.split())
        if re.search(r"let mut (\w+): (usize|u8|u32|u64) = 0;", b) and re.search(r"\{ \w+ = 1; \}", b):
            t.add("0 or 1 in a number", f.crate, f.name)
        elif re.fullmatch(r"u8|u16|u32|u64|usize|&\[u8\]", r) and special(f):
            t.add("a number that stands for `none`", f.crate, f.name)
    for crate, name, s in texts:
        for m in re.finditer(r"struct\s+(\w+)[^{;(]*\{", blank(s)):
            b = blank(s)
            fields = params("(" + b[m.end():block(b, m.end() - 1) - 1] + ")")
            flags = [n for n, k in fields if k == "bool" and n.replace("pub ", "") in FLAGS]
            if flags:
                t.add("a flag beside a value, in a struct", crate, m.group(1))
    t.tell()
    t = Tally("1c numbers for kinds or refusals", show)
    for f in fns:
        for n, k in params(f.sig):
            if re.fullmatch(r"u8|u32|u64|usize", k) and n in ("no", "kind", "side", "part", "state"):
                t.add(f"parameter {n}: {k}", f.crate, f.name)
        if result(f.sig) == "u8" and CODES.search(f.name):
            t.add("answer u8 that is a code", f.crate, f.name)
    for crate, name, s in texts:
        b = blank(s)
        for m in re.finditer(r"(?:struct|enum)\s+(\w+)[^{;(]*\{", b):
            fields = b[m.end():block(b, m.end() - 1)]
            for k in re.findall(r"\b(no|kind|side|part|state): (?:u8|u32|u64|usize)\b", fields):
                t.add(f"field {k}", crate, m.group(1))
        for m in LITERAL.finditer(b):
            t.add("refusal number written out", crate, m.group(1) or m.group(2))
    t.tell()
    t = Tally("1d refusals handed on arm by arm, where `?` would stand", show)
    for f in fns:
        b = " ".join(f.body.split())
        told = r"\{ no, (?:line, )?column,? \}"
        arms = re.findall(rf"::(?:Refused|Bad) {told} => (?:\{{ )?(?:return )?\w+::\w+ {told}", b)
        arms += re.findall(r"Err\((\w+)\) => (?:\{ )?(?:return )?(?:Err|\w+::\w+)\(\1\)", b)
        for _ in arms:
            t.add("arms", f.crate, f.name)
    t.tell()


FLAGS = {"good", "on", "failed", "full", "some", "ended", "behind", "apart", "done"}
CODES = re.compile(r"^(count_shallow|count_formula|kind_of|access|bracket)$")


def special(f):
    """Whether a function answers a number and, in a branch, a written number that stands for `none`."""
    b = " ".join(f.body.split())
    hits = re.findall(r"return (\d+|\w+\.len\(\)|[A-Z]{2,}\w*);", b)
    hits += re.findall(r"else \{ (0|1\d\d+) \}", b)
    names = r"^find|next_|first_key|short_number|number_of|code_in|entry_at|element|symbol_of|letters_of"
    return bool(hits and re.search(names, f.name) or re.match(r"(find|first_key|next_entry|find_\w+)$", f.name))


class Tally:
    """Places by kind, with the split into library and programs."""

    def __init__(self, title, show):
        self.title, self.show, self.kinds = title, show, defaultdict(lambda: defaultdict(list))

    def add(self, kind, crate, name):
        self.kinds[kind][crate].append(name)

    def total(self):
        n = [0, 0]
        for crates in self.kinds.values():
            for c, names in crates.items():
                n[is_program(c)] += len(names)
        return n

    def tell(self):
        lib, prog = self.total()
        print(f"{self.title}: {lib + prog} = library {lib} + programs {prog}")
        for kind, crates in sorted(self.kinds.items(), key=lambda x: -sum(map(len, x[1].values()))):
            a = sum(len(v) for c, v in crates.items() if not is_program(c))
            b = sum(len(v) for c, v in crates.items() if is_program(c))
            print(f"- {kind}: {a + b} = {a} + {b}")
            if self.show:
                for c, names in sorted(crates.items()):
                    told = [n if k == 1 else f"{n} ({k})" for n, k in Counter(names).items()]
                    wrap(f"{c}: {', '.join(told)}.")


def wrap(text, indent="  - ", width=118):
    line = indent
    for word in text.split():
        if len(line) + len(word) + 1 > width:
            print(line.rstrip())
            line = "    "
        line += word + " "
    print(line.rstrip())


# 2 -------------------------------------------------------------------------------------------------------------------
KEYWORDS = set("if else while loop for in let mut return match break continue as true false self ref".split())


def tokens(f):
    """The body, each name replaced by the place where it first stands, each number and text by N."""
    seen, out = {}, []
    for x in re.findall(r"b?'[^']*'|b?\"[^\"]*\"|\d\w*|[A-Za-z_]\w*(?:::\w+)*|=>|[-+*/%<>=!&|]=?|\S", f.body):
        if x in KEYWORDS:
            out.append(x)
        elif re.match(r"b?['\"]|\d", x):
            out.append("N")
        elif re.match(r"[A-Za-z_]", x):
            out.append(f"v{seen.setdefault(x, len(seen))}")
        else:
            out.append(x)
    return out


def point2(fns, ens, texts, show, least=18):
    toks = [(f, tokens(f)) for f in fns]
    groups = defaultdict(list)
    for f, t in toks:
        if len(t) > 8:
            groups[" ".join(t) if len(t) >= least else f"{f.name} {' '.join(t)}"].append(f)
    alike = sorted((v for v in groups.values() if len(v) > 1), key=lambda v: v[0].place)
    n = sum(len(v) for v in alike)
    p = sum(is_program(f.crate) for v in alike for f in v)
    print(f"2a functions with the same body but for names, numbers and types: {len(alike)} groups,"
          f" {n} functions = library {n - p} + programs {p}")
    if show:
        for v in alike:
            wrap("; ".join(f.place for f in v) + ".")
    heads = sorted(((f, t, Counter(t)) for f, t in toks if len(t) >= 24), key=lambda x: len(x[1]))
    pairs = []
    for i, (f, t, c) in enumerate(heads):
        for g, u, d in heads[i + 1:]:
            if len(u) > 1.25 * len(t):
                break
            close = f.crate == g.crate or f.name == g.name
            near = 0.84 if close else 0.92
            if t == u or (len(t) < 45 and not close) or sum((c & d).values()) * 2 < near * (len(t) + len(u)):
                continue
            if difflib.SequenceMatcher(None, t, u, False).ratio() >= near:
                pairs.append((f, g))
    p = sum(is_program(f.crate) and is_program(g.crate) for f, g in pairs)
    print(f"2b pairs of functions whose bodies are nearly so: {len(pairs)} = library {len(pairs) - p} + programs {p}")
    if show:
        for f, g in sorted(pairs, key=lambda p: p[0].place):
            wrap(f"{f.place}; {g.place}.")
    types = defaultdict(list)
    for crate, name, s in texts:
        b = blank(s)
        for m in re.finditer(r"\b(struct|enum)\s+(\w+)[^{;(]*\{", b):
            body = " ".join(b[m.end():block(b, m.end() - 1) - 1].replace("pub ", "").split()).rstrip(", ")
            if m.group(1) == "struct":
                key = "struct " + ", ".join(sorted(split(re.sub(r"u32|u64|usize", "N", body))))
            else:
                key = re.sub(r"\b[ui](8|16|32|64|size)\b", "N", body)
                key = "enum " + re.sub(r"\b[A-Z]\w*\b(?=[({ ,]|$)", "V", key)
            types[re.sub(r"\s+", " ", key)].append((crate, m.group(2)))
    same = sorted((k, v) for k, v in types.items() if len(v) > 1)
    n = sum(len(v) for _, v in same)
    p = sum(is_program(c) for _, v in same for c, _ in v)
    print(f"2c types with the same fields but for names and sizes: {len(same)} groups,"
          f" {n} types = library {n - p} + programs {p}")
    if show:
        for k, v in same:
            wrap("; ".join(f"{c}: {n}" for c, n in v) + f" ({k}).")


# 3 -------------------------------------------------------------------------------------------------------------------
def loops(f):
    """Each loop of a function and its kind."""
    for m in re.finditer(r"\b(while|loop|for)\b", f.body):
        i = f.body.find("{", m.end())
        e = block(f.body, i)
        head = " ".join(f.body[m.end():i].split())
        inner = re.sub(r"\s+", " ", f.body[i:e])
        yield m.group(1), head, inner, f.body[:m.start()]


def loop_kind(word, head, inner, before):
    out = re.search(r"\breturn\b|\bbreak\b", inner) is not None
    early = ", with a way out" if out else ""
    if word == "for":
        return "for"
    if word == "loop":
        step = re.search(r"\b(\w+) \+= 1;", inner)
        if re.search(r"line_at|whole_line|value_at|item_at", inner):
            return "cursor over a text or records that jumps (loop)"
        return "index without a bound (loop)" if step else "cursor over a text or records that jumps (loop)"
    if re.search(r"let mut turns = u64::MAX", before) and "turns" in head:
        return "reading until the end of input (a bound of u64::MAX turns)"
    if "turns" in head:
        return "cursor over a text that jumps, with a bound of its length in turns"
    left = re.search(r"(?:0 < (\w+)|(\w+) > 0)$", head)
    if left and re.search(rf"\b{left.group(1) or left.group(2)} -= ", inner):
        v = left.group(1) or left.group(2)
        if re.search(rf"\[[^\]]*\b{v}\b", inner):
            return "backwards over a part" + early
        return "so many times, counted down" + early
    m = re.search(r"\b(\w+) \+= (\w+);", inner)
    down = re.search(r"\b(\w+) -= 1;", inner)
    if down and re.search(rf"\b{down.group(1)}\b", head):
        return "backwards over a part" + early
    if re.fullmatch(r"from < j", head):
        return "backwards over a part" + early
    for v, step in re.findall(r"\b(\w+) \+= (\w+);", inner):
        if re.search(rf"\b{v}\b", head):
            if step != "1":
                return "steps of 8, 16, 32 or 64" + early
            whole = re.fullmatch(rf"{v} < \w+(\.len\(\)|)", head)
            start = re.findall(rf"let mut {v}(?:: \w+)? = ([^;]+);", before)
            zero = start and start[-1].strip() == "0"
            if re.fullmatch(rf"{v} < [\w.]+\.len\(\)", head) and zero:
                return "a whole slice in order" + early
            if zero and re.fullmatch(rf"{v} < (\d+|[A-Z][A-Z_]+)", head):
                return "a fixed number of places in order" + early
            return "a part in order" + early
    return "cursor over a text or records that jumps (while)"


def point3(fns, ens, texts, show):
    t = Tally("3 loops", show)
    for f in fns:
        for lp in loops(f):
            t.add(loop_kind(*lp), f.crate, f.name)
    t.tell()
    lib, prog = t.total()
    done = sum(len(names) for names in t.kinds.get("for", {}).values())
    hand = {k: v for k, v in t.kinds.items() if k != "for" and "jumps" not in k and "end of input" not in k}
    h = Tally("3 of these, an index counted by hand", False)
    h.kinds = hand
    a, b = h.total()
    print(f"3 of these, an index counted by hand: {a + b} = library {a} + programs {b}; already `for`: {done}")


# 4 -------------------------------------------------------------------------------------------------------------------
def point4(fns, ens, texts, show):
    t = Tally("4 equality, order, copying, conversion, printing by hand", show)
    for f in fns:
        b = " ".join(f.body.split())
        looped = any(True for _ in loops(f))
        at = r"\w+(?:\.\w+)*\[[^\]]+\]"
        if looped and re.search(rf"{at} [!=]= (\w+\()?{at}|column\(line, i \+ k\) != \w+\[", b):
            t.add("equality of slices", f.crate, f.name)
        elif re.search(r"\blen\(\) != \w+\.len\(\)", b) and re.search(r"has_text|same", b):
            t.add("equality of slices", f.crate, f.name)
        elif len(re.findall(r"[\w.\]]+ [!=]= \w+\.\w+|\w+\[[^\]]+\] [!=]= \w+\.\w+", b)) >= 3 and "return false" in b:
            t.add("equality field by field", f.crate, f.name)
        elif looped and re.search(rf"{at} < {at}", b):
            t.add("order of slices", f.crate, f.name)
        elif looped and re.search(rf"{at} = (\w+\()?{at}\)?;|{at} = \*\w+;|{at} = x;|store_byte\(", b):
            t.add("copying of slices", f.crate, f.name)
        elif looped and re.search(rf"{at} = 0;", b):
            t.add("filling with zeros", f.crate, f.name)
        elif re.fullmatch(r"\{ (let \w+ = \w+(\.\w+)*; )*match [\w.]+ \{.*\} \}", b) and variant_map(b):
            t.add("conversion of one enum into another, or into a table, arm by arm", f.crate, f.name)
        elif re.fullmatch(r"\{ (\w+ as \w+|\w+::from\(\w+\)|\(?\w+( % \d+)?\)? as \w+) \}", b):
            t.add("conversion of a number by a function of its own", f.crate, f.name)
        elif not looped and len(re.findall(r"\w+\[[^\]]+\] = [\w.]+( as \w+)?;", b)) >= 3:
            t.add("a struct written into a row of numbers, field by field", f.crate, f.name)
        elif len(re.findall(r"\b(\w+): \w+\.\1\b", b)) >= 3:
            t.add("a struct made anew, field by field of itself", f.crate, f.name)
        elif re.search(r"% 10\b|\b48 \+|b'_' \+ ", b):
            t.add("printing of digits", f.crate, f.name)
        elif re.search(r"^(lower|higher|least|smaller|minus|plus|less|at_most|at_most_eight|capped)$", f.name) \
                and len(b) < 160 and "line" not in f.sig:
            t.add("least, most, saturating sums (Ord, saturating_add)", f.crate, f.name)
        elif fieldwise(b):
            t.add("equality field by field", f.crate, f.name)
    t.tell()


def variant_map(b):
    arms = re.findall(r"[A-Z]\w*::[A-Z]\w*(?: \{[^{}]*\}|\([^()]*\))? => \{? ?([A-Z]\w*(?:::[A-Z]\w*)?|\[)", b)
    return len(arms) >= 2 and b.count("=>") <= len(arms) + 1


def fieldwise(b):
    return len(set(re.findall(r"\b(\w+)\.(\w+) [!=]= (?!\1)\w+\.\2\b", b))) >= 2


# 5 -------------------------------------------------------------------------------------------------------------------
def conjuncts(t):
    t = t.strip()
    while t.startswith("("):
        d = 0
        for i, c in enumerate(t):
            d += (c == "(") - (c == ")")
            if d == 0:
                break
        if i != len(t) - 1:
            break
        t = t[1:-1].strip()
    parts = split(t.replace("≤", "@").replace("<", "#"), "×")
    parts = [p.replace("@", "≤").replace("#", "<") for p in parts]
    return [t] if len(parts) == 1 else [q for p in parts for q in conjuncts(p)]


def point5(fns, ens, texts, show):
    facts, groups = defaultdict(list), defaultdict(set)
    for f in fns:
        names = {n for n, _ in params(f.sig)}
        for kind, _, text in f.clauses:
            if kind != "requires":
                continue
            for c in set(conjuncts(text)):
                seen = {}

                def word(m):
                    n = m.group().split(".")[0]
                    return seen.setdefault(n, "xyzuvw"[len(seen) % 6]) if n in names else m.group()
                facts[re.sub(r"[A-Za-z_]\w*(?:\.(?:now|old))?", word, c)].append(f.place)
    often = sorted(((k, sorted(set(v))) for k, v in facts.items() if len(set(v)) >= 3), key=lambda x: -len(x[1]))
    n = sum(len(v) for _, v in often)
    p = sum(is_program(x.split(":")[0]) for _, v in often for x in v)
    print(f"5a facts in the requires of three or more functions: {len(often)} facts,"
          f" {n} places = library {n - p} + programs {p}")
    if show:
        for k, v in often:
            by = defaultdict(list)
            for x in v:
                c, g = x.split(": ")
                by[c].append(g)
            wrap(f"{len(v)}: `{k}` ({'; '.join(c + ': ' + ', '.join(g) for c, g in by.items())}).")
    have = {f.place: frozenset(f"{n}: {k}" for n, k in params(f.sig)) for f in fns}
    rest = {k: v for k, v in have.items() if len(v) >= 3}
    covers = []
    while True:
        count = Counter()
        for v in rest.values():
            for r in range(3, min(len(v), 7) + 1):
                count.update(combinations(sorted(v), r))
        best = max((((len(q) - 1) * n, n, q) for q, n in count.items() if n >= 3), default=None)
        if not best:
            break
        q = best[2]
        v = sorted(k for k, x in rest.items() if set(q) <= x)
        covers.append((q, v))
        rest = {k: x for k, x in rest.items() if k not in v}
    n = sum(len(v) for _, v in covers)
    p = sum(is_program(x.split(":")[0]) for _, v in covers for x in v)
    print(f"5b groups of three or more parameters together in three or more functions: {len(covers)} groups,"
          f" {n} functions = library {n - p} + programs {p}")
    if show:
        for q, v in covers:
            by = defaultdict(list)
            for x in v:
                c, g = x.split(": ")
                by[c].append(g)
            wrap(f"{len(v)}: `{', '.join(q)}` ({'; '.join(c + ': ' + ', '.join(g) for c, g in by.items())}).")


# 6 -------------------------------------------------------------------------------------------------------------------
LENGTHS = {"used", "count", "n", "m", "lots", "length", "filled", "entries", "repairs", "lengths"}


def point6(fns, ens, texts, show):
    t = Tally("6 buffers with a length beside, parallel arrays, lists searched by hand, indices", show)
    for f in fns:
        ps = params(f.sig)
        room = [n for n, k in ps if re.search(r"\[[\w:]+(; \w+(?:::\w+)?)?\]", k)]
        lens = [n for n, k in ps if n in LENGTHS and k in ("usize", "u32")]
        slots = Counter(re.search(r"; (\w+)\]", k).group(1) for n, k in ps if re.search(r"; (\w+)\]", k))
        if {"names", "lengths", "counts"} <= set(room) or {"names", "lengths"} <= set(room):
            t.add("parallel arrays: names, lengths, counts", f.crate, f.name)
        elif {"heads", "sizes"} <= set(room) or {"keys", "papers"} <= set(room):
            t.add("parallel arrays: heads and sizes, keys and papers", f.crate, f.name)
        elif room and lens:
            t.add("an array or slice and its length, as parameters", f.crate, f.name)
        if re.match(r"(find|find_\w+|first_key|near_key|far_key|repeats|is_name|line_at_name|hunt|find_in)$", f.name):
            t.add("a list searched by hand", f.crate, f.name)
    for crate, name, s in texts:
        b = blank(s)
        for m in re.finditer(r"struct\s+(\w+)[^{;(]*\{", b):
            body = b[m.end():block(b, m.end() - 1)]
            if re.search(r"\[\w+; ", body):
                t.add("a struct that holds an array and its length", crate, m.group(1))
        for m in re.finditer(r"\b(\w+)\[(\d+|[A-Z]+|\d \* [A-Z]+) \+ (\w+)\]", b):
            t.add("one array cut into several by a distance", crate, m.group(0).replace(" ", ""))
    t.tell()


# 7 -------------------------------------------------------------------------------------------------------------------
SWITCH = {"task", "kind", "verb", "json", "sd", "negatives", "side", "writing"}


def point7(fns, ens, texts, show):
    t = Tally("7 parameters and fields that say which step to run", show)
    for f in fns:
        for n, k in params(f.sig):
            if n in SWITCH and not k.startswith("&"):
                t.add(f"parameter {n}", f.crate, f.name)
    t.tell()
    t = Tally("7 branches on them", show)
    for f in fns:
        for m in re.finditer(rf"\b(?:match|if !?)\s*((?:\w+\.)*(?:{'|'.join(sorted(SWITCH))}))\b", f.body):
            t.add(m.group(1).split(".")[-1], f.crate, f.name)
    t.tell()


# 8 -------------------------------------------------------------------------------------------------------------------
def answers(s):
    """The answers of a file: name and right-hand side, comments out, each on one line."""
    s = re.sub(r"--[^\n]*", "", s)
    for part in re.split(r"\n\s*\n", s):
        body = re.sub(r"(?m)^(pub )?[\w-]+ :(?:[^\n]*\n(?: [^\n]*\n)*)", "", part + "\n")
        m = re.search(r"(?m)^(?:pub )?([\w-]+)((?: [^\n=:]*)?) = *((?:.|\n)*)", body)
        if m:
            yield m.group(1), " ".join(m.group(3).split())


def point8(commit, show):
    per, same, rules, only, lemmas = Counter(), Counter(), Counter(), Counter(), Counter()
    where, folders, every = defaultdict(Counter), Counter(), Counter()
    for name, s in files(commit, r"crates/[^/]+/proofs/.*\.antt"):
        crate = crate_of(name)
        if name.endswith("/Answers.antt"):
            got = list(answers(s))
            per[crate] += len(got)
            folders[crate] += 1
            for n, rhs in got:
                same[rhs] += 1
                where[rhs][crate] += 1
                if rhs in ("search rules", "search (rules)", "rules"):
                    rules[crate] += 1
                if re.fullmatch(r"search \(rules(, [\w.]+)*\)|search [\w.]+|search rules", rhs):
                    only[crate] += 1
            if got and all(re.fullmatch(r"search (\(rules(, [\w.]+)*\)|[\w.]+)", r) for _, r in got):
                every[crate] += 1
        elif not name.endswith("/Invariants.antt"):
            lemmas[crate] += len(re.findall(r"(?m)^(?:pub )?[\w'-]+ :", s))
    n = sum(per.values())
    p = sum(v for c, v in per.items() if is_program(c))
    print(f"8a answers: {n} = library {n - p} + programs {p}, in {sum(folders.values())} files")
    print(f"8b answers that say `search rules` alone: {sum(rules.values())}")
    print(f"8c answers that are one `search` with rules and named laws: {sum(only.values())};"
          f" files with nothing else: {sum(every.values())}")
    rep = [(r, k) for r, k in same.most_common() if k >= 3]
    print(f"8d right-hand sides that stand three times or more: {len(rep)}, {sum(k for _, k in rep)} answers")
    print(f"8e lemmas in proofs/ outside Answers and Invariants: {sum(lemmas.values())}")
    if show:
        print("Per crate: files, answers, of these one `search`, files with nothing else, lemmas.")
        for c in sorted(set(per) | set(lemmas)):
            print(f"  - {c}: {folders[c]}, {per[c]}, {only[c]}, {every[c]}, {lemmas[c]}")
        for r, k in rep:
            if k >= 8:
                wrap(f"{k}: `{r[:140]}` ({', '.join(where[r])}).")


def main(args):
    show = "--places" in args
    commit = args[args.index("--at") + 1] if "--at" in args else None
    points = [int(a) for a in args if a.isdigit() and a not in (commit,)] or list(range(1, 9))
    fns, ens, texts = read(commit)
    print(f"{len(texts)} files, {len(fns)} functions, {len(ens)} enums")
    for p in points:
        if p == 8:
            point8(commit, show)
        else:
            globals()[f"point{p}"](fns, ens, texts, show)


if __name__ == "__main__":
    main(sys.argv[1:])
