#!/usr/bin/env python3
"""Respells this repository's own definitions and lemmas, run once at the top after the toolchain's port.py.

A name of specs/ or proofs/ that joins its words by a dash gets the spelling of its kind: a fact or a type (it begins with a
capital) is written in camel case, as Made-empty in MadeEmpty, and everything else in snake case, as row-rule in row_rule.
Names that the toolchain makes for a goal keep theirs. Prints what falls together and stops there; --list prints the table.
"""
import collections
import os
import re
import subprocess
import sys

WORD = re.compile(r"[^\s(){};,.\[\]«»⌜⌝`\"|:]+")
SIGNATURE = re.compile(r"(?:(?:pub|abbrev|unfoldable|data|record|ruleset) )*(" + WORD.pattern + r") (?:\(.*\) )?:(?!:)(.*)")
MADE = re.compile(r"^(returns|invariant|decreases|loop|overflow|nonzero|bounds|slice)-|-(requires|preserved|smaller|init)$")


def tracked():
    names = subprocess.run(["git", "ls-files", "-co", "--exclude-standard"], capture_output=True, text=True).stdout.split("\n")
    return [n for n in names if os.path.isfile(n)]


def own_names(files):
    found = set()
    for path in files:
        if not re.match(r"crates/[^/]+/(specs|proofs)/.*\.antt$", path):
            continue
        for line in open(path, encoding="utf-8"):
            m = SIGNATURE.match(line.strip())
            if m and not line.lstrip().startswith("--") and not m.group(2).strip().startswith("goal."):
                found.add(m.group(1))
    return found


# a test of type Bool that the toolchain's script took for a fact
TESTS = {"Alike-at": "alike_at"}


def spelled(name):
    if name in TESTS:
        return TESTS[name]
    parts = name.split("-")
    if name[0].isupper():
        return "".join(p[:1].upper() + p[1:] for p in parts)
    return "_".join(parts)


def main():
    files = tracked()
    own = own_names(files)
    for path in files:
        if path.startswith("crates/") and path.endswith(".rt"):
            for m in re.finditer(r"\bas (" + WORD.pattern + r")(?=[,}])", open(path, encoding="utf-8").read()):
                own.add(m.group(1))
    table = {n: spelled(n) for n in own if "-" in n and not MADE.search(n)}
    back = collections.defaultdict(list)
    for old, new in table.items():
        back[new].append(old)
    bad = [(new, olds) for new, olds in back.items() if len(olds) > 1 or new in own]
    if "--list" in sys.argv:
        for old in sorted(table):
            print(old, table[old])
    for new, olds in bad:
        print("falls together:", new, olds)
    if "--list" in sys.argv:
        return
    if bad and "--anyway" not in sys.argv:
        sys.exit(1)
    for path in files:
        kind = path.startswith("crates/") and path.endswith((".antt", ".rt"))
        page = path == "README.md" or (path.startswith("docs/") and path.endswith(".md"))
        if not (kind or page):
            continue
        text = open(path, encoding="utf-8").read()
        new = WORD.sub(lambda m: table.get(m.group(0), m.group(0)), text)
        if page:
            new = re.sub(r"`[^`\n]*`", lambda m: WORD.sub(lambda w: table.get(w.group(0), w.group(0)), m.group(0)), text)
        if new != text:
            open(path, "w", encoding="utf-8").write(new)


main()
