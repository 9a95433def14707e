#!/usr/bin/env python3
"""Counts the places of the code that an older language left, for docs/DESIGN-PASS.md.

    python3 tools/places.py [ROOT] [-v]

It reads crates/*/src/**/*.rt under ROOT (here, if none is named) and prints a count for each point; with -v every place
too. It goes by text: what it lists is to be read, and a place that only looks like one is named in the page.
"""
import collections
import pathlib
import re
import sys

ROOT = pathlib.Path(next((a for a in sys.argv[1:] if not a.startswith("-")), "."))
VERBOSE = "-v" in sys.argv
FILES = sorted(p for p in ROOT.glob("crates/*/src/**/*.rt"))
KEYWORDS = set("""fn pub let mut if else match for in while loop return self Self impl struct enum trait where use mod const
    as ref move true false Ok Err Some None usize u8 u16 u32 u64 bool Option Result""".split())


def short(path):
    return str(path.relative_to(ROOT / "crates")).replace("/src/", "/")


def lines_with(pattern):
    found = []
    for path in FILES:
        for number, line in enumerate(path.read_text().splitlines(), 1):
            if not line.strip().startswith("//") and re.search(pattern, line):
                found.append(f"{short(path)}:{number}: {line.strip()[:110]}")
    return found


def functions():
    """Each function: where, its name, its head (clauses among it) and its body."""
    for path in FILES:
        text = path.read_text()
        for m in re.finditer(r"^( *)(?:pub(?:\([a-z]+\))? )?fn (\w+)", text, re.M):
            indent = m.group(1)
            end = re.search(rf"^{indent}(\}}|\{{[^\n]*\}})$", text[m.start():], re.M)
            semi = re.search(r";\n", text[m.start():])
            if end is None or (semi and semi.start() < text[m.start():].find("{\n" + indent + "    ") and semi.start() < end.start()
                               and f"\n{indent}{{" not in text[m.start():m.start() + semi.start()]):
                continue
            whole = text[m.start():m.start() + end.end()]
            at = whole.find(f"\n{indent}{{\n")
            head, body = (whole[:at], whole[at:]) if at >= 0 else (whole.split("{", 1)[0], whole.split("{", 1)[-1])
            yield f"{short(path)}:{text[:m.start()].count(chr(10)) + 1}", m.group(2), head, body


def shape(body):
    """The body with its own names and its numbers replaced by their order of first use."""
    body = re.sub(r"//.*", "", body)
    names = {}
    out = []
    for token in re.findall(r"[A-Za-z_]\w*|\d+|\S", body):
        if re.match(r"[A-Za-z_]", token) and token not in KEYWORDS:
            token = names.setdefault(token, f"n{len(names)}")
        elif token.isdigit():
            token = "0"
        if token != ",":
            out.append(token)
    return " ".join(out)


def twins():
    groups = collections.defaultdict(list)
    for where, name, _, body in functions():
        if len(shape(body).split()) >= 14:
            groups[shape(body)].append(f"{where} {name}")
    return [" = ".join(group) for group in groups.values() if len(group) > 1]


def clauses():
    """Clauses that stand in three contracts or more, with the receiver's and the bound's names taken out."""
    seen = collections.defaultdict(set)
    for where, name, head, _ in functions():
        for clause in re.findall(r"(?:requires|ensures) ?\w* ?(\{ .* \})", head):
            plain = re.sub(r"\b(self|store|file|table|player|programme)\b", "x", clause)
            if len(plain) > 24:
                seen[plain].add(f"{where} {name}")
    return [f"{clause[:80]} in {', '.join(sorted(places))}" for clause, places in seen.items() if len(places) > 2]


def parameters():
    """Groups of three parameters or more that travel together through three functions or more."""
    lists = []
    for where, name, head, _ in functions():
        m = re.search(r"fn \w+(?:<[^(]*>)?\((.*?)\)(?: ->|\s*$|\n)", head, re.S)
        if m:
            lists.append((f"{where} {name}", frozenset(re.findall(r"(\w+): ", m.group(1)))))
    groups = {}
    for i, (_, a) in enumerate(lists):
        for _, b in lists[i + 1:]:
            common = a & b
            if len(common) > 2:
                groups[common] = {w for w, c in lists if common <= c}
    return [f"{', '.join(sorted(g))} in {', '.join(sorted(w))}" for g, w in groups.items() if len(w) > 2]


POINTS = [
    ("1 numbers for reasons", lambda: lines_with(r"^ *(pub )?const [A-Z_]+: u8 = \d+;")),
    ("1 a flag with a value beside it, or for a refusal", lambda: lines_with(r", bool\)|fn \w+\(&mut self.*-> bool|\(bool, ")),
    ("1 results told as numbers", lambda: lines_with(r"\(u8, usize, usize\)|-> Said\b")),
    ("2 functions of one shape", twins),
    ("2 types: a list with a length, a refusal with its bytes", lambda: lines_with(r"struct (Numbers|PositionKey|Situation|Bins|Refused\w*) ")),
    ("3 loops over an index or by while", lambda: lines_with(r"^ *(for \w+ in [^{]*\.\.|while )")),
    ("4 conversions by as", lambda: lines_with(r"\bas (u8|u16|u32|u64|usize)\b")),
    ("4 two bytes put together by hand", lambda: lines_with(r"256 \* ")),
    ("4 fields printed one by one", lambda: lines_with(r"let (\w+) = \w+\.\1;")),
    ("4 an Option taken apart by hand", lambda: lines_with(r"^ *None => (0|false|None),$|^ *let Some\(\w+\) = .* else \{$")),
    ("5 clauses in three contracts or more", clauses),
    ("5 parameters that travel together", parameters),
    ("6 an array with a length beside it", lambda: lines_with(r"^ *\w+: \[\w+; [A-Z_0-9]+\],")),
    ("7 switches on a step, tables of functions", lambda: lines_with(r"\bdyn |: fn\(|^ *match (entrant|kind|step|number) ")),
]

for title, find in POINTS:
    places = find()
    print(f"{title}: {len(places)}")
    if VERBOSE:
        for place in places:
            print(f"    {place}")
