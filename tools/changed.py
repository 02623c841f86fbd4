#!/usr/bin/env python3
"""What changed of public signatures, clauses and definitions, old and new side by side, as Markdown.

`python3 tools/changed.py OLD NEW CHANGES`: two checkouts, and what the toolchain's comparison of their contracts prints with --json.
"""
import glob
import json
import os
import re
import sys

old, new, changes = sys.argv[1:4]
d = json.load(open(changes))
NUMBERS = "Mark Trailer Places Title Order Record Cycle RunningTime Headway Volume GreenTime SeedRow NoVolume Unserved".split()
NUMBERS = {i + 1: n for i, n in enumerate(NUMBERS)} | {16: "ProfileRoom", 17: "BufferRoom", 18: "Full", 19: "PointCount", 20: "PointRange", 21: "PageRoom"}


def public(where):
    crate, file, name = where.split(" ", 2)
    path = os.path.join(old, "crates", crate, file)
    return os.path.exists(path) and re.search(r"pub (extern \"C\" )?fn " + re.escape(name.split("::")[-1]) + r"\b", open(path).read())


def plain(text):
    return re.sub(r"\s+", " ", text if isinstance(text, str) else " ".join(text)).strip()


def renamed(text):
    text = re.sub(r"(?<![\w.-])refused(?![\w.-])", "Err", plain(text))
    text = re.sub(r"(?<![\w.-])ok(?![\w.-])", "Ok", text)
    text = re.sub(r"\b(need|Err|test) (\d+)\b", lambda m: f"{m.group(1)} {NUMBERS.get(int(m.group(2)), m.group(2))}", text)
    text = text.replace(": Greens", ": Signalised Green").replace("→ Greens", "→ Signalised Green")
    text = re.sub(r"Wrote (?=(b|out|page|line|text|l|t)\S* (at|0|p) )", "WroteAt ", text)
    return text


def clauses(rows, word):
    return " ".join(f"{word} {(n + ' ') if n else ''}{{ {plain(t)} }}" for n, t in rows)


def code(text):
    return "`` " + text.replace("|", "\\|") + " ``" if "`" in text else "`" + text.replace("|", "\\|") + "`"


print("### Public functions\n")
print("| crate, function | old | new |")
print("|---|---|---|")
signature = {w: (a, b) for w, a, b in d["signatures changed"]}
clause = {row[0]: row[1:] for row in d["contracts changed"]}
for where in sorted(set(signature) | set(clause)):
    if not public(where):
        continue
    crate, _, name = where.split(" ", 2)
    a = b = ""
    if where in signature:
        a, b = (plain(x) for x in signature[where])
    if where in clause:
        ra, ea, rb, eb = clause[where]
        a = plain(f"{a} {clauses(ra, 'requires')} {clauses(ea, 'ensures')}")
        b = plain(f"{b} {clauses(rb, 'requires')} {clauses(eb, 'ensures')}")
    print(f"| {crate} `{name}` | {code(a)} | {code(b)} |")

print("\n### Public functions under another name, or gone\n")
for where in d["functions not found again"]:
    w = re.sub(r" \(requires.*", "", where)
    if public(w):
        crate, _, name = w.split(" ", 2)
        print(f"- {crate} `{name}`")

same = []
print("\n### Definitions, invariants and laws of specs/\n")
print("| crate | old | new |")
print("|---|---|---|")
for row in sorted(d["definitions"]["changed"]):
    crate, name, a, b = row[0], row[1], plain(row[2]), plain(row[3])
    if renamed(a) == renamed(b):
        same.append(f"{crate} `{name}`")
        continue
    print(f"| {crate} | {code(a[:700])} | {code(b[:700])} |")
print("\nThe same but for the names of refusals (`ok` is `Ok`, `refused 6` is `Err Record`, ..), `Greens` and `Wrote`: " + ", ".join(same) + ".")
print("\n### Definitions and laws of specs/ that are gone\n")
print(", ".join(f"{c} `{n}`" for c, n in d["definitions"]["gone"]) + ".")
