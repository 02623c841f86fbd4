#!/usr/bin/env python3
"""Places in crates/*/src that docs/DESIGN-PASS.md counts, by point: `python3 tools/places.py [ROOT]`.

1 enums of the repository's own whose variants carry values, refusals written as numbers, a number that says none
2 functions of one shape: the same tokens but for names, types and numbers
3 `while` and `loop`
4 functions of a name that says a conversion, a comparison, a choice of two or a number's digits; fields compared one by one
5 facts in the `requires` of three or more functions, parameters that stand together in three or more
6 a byte buffer with a place beside it
7 a value matched only to choose a function, programs that differ in the function they run
"""
import collections
import glob
import os
import re
import sys

root = sys.argv[1] if len(sys.argv) > 1 else "."
os.chdir(root)
files = sorted(glob.glob("crates/*/src/*.rt"))
KEYWORDS = set(
    "fn pub let mut if else while for in loop match return impl struct enum use mod const as true false self Self ref move break continue where trait type".split()
)


def functions(text):
    for m in re.finditer(r"^( *)(?:pub(?:\(crate\))? )?(?:extern \"C\" )?fn (\w+)", text, re.M):
        indent = m.group(1)
        end = re.search(r"^" + indent + r"\}\n?$", text[m.start():], re.M)
        if not end:
            continue
        whole = text[m.start():m.start() + end.end()]
        start = re.search(r"^" + indent + r"\{$|\{$", whole, re.M)
        head, body = whole[:start.start()], whole[start.start():]
        line = text.count("\n", 0, m.start()) + 1
        yield m.group(2), line, head, body


def shape(body):
    out = []
    for t in re.findall(r"[A-Za-z_]\w*|\d[\w.]*|b?\"[^\"]*\"|[^\s\w]", body):
        if t in KEYWORDS:
            out.append(t)
        elif re.match(r"[A-Za-z_]", t) and t[0] != "b\"":
            out.append("x")
        elif re.match(r"\d|b?\"", t):
            out.append("0")
        else:
            out.append(t)
    return tuple(out)


points = collections.OrderedDict((n, []) for n in range(1, 8))
shapes = collections.defaultdict(list)
facts = collections.defaultdict(set)
together = collections.defaultdict(set)

for f in files:
    text = open(f).read()
    crate = f.split("/")[1]
    for i, line in enumerate(text.split("\n"), 1):
        if line.lstrip().startswith("//"):
            continue
        at = f"{f}:{i}: {line.strip()}"
        if re.match(r"(pub )?enum ", line):
            block = text.split("\n")[i:]
            block = block[:block.index("}")]
            if any(re.search(r"[({]", v) for v in block):
                points[1].append(at)
        if re.search(r"(Refused|Invalid)\([0-9]+\)|first_failed\(|failed != 0|kind == [0-9]|(next|number) == 0\b|\b15\)", line):
            points[1].append(at)
        if re.match(r"\s*(while|loop)\b", line):
            points[3].append(at)
        if re.search(r"\.level == .*&&", line):
            points[4].append(at)
    for name, line, head, body in functions(text):
        where = f"{crate}::{name}"
        key = shape(body)
        if len(key) >= 12:
            shapes[key].append(f"{f}:{line} {name}")
        if re.match(r"(from_|rows_of|wide$|low$|high$|long$|least$|lacking$|word\d_at|place_at|\w+_answer$|refusal_of|last_sum_of|zero_|append_decimal|discharge_volume$)", name):
            points[4].append(f"{f}:{line}: fn {name}")
        for clause in re.findall(r"requires \w*\s*\{(.*)\}", head):
            for fact in clause.split("×"):
                fact = re.sub(r"\.(now|old)\b", "", fact).strip(" ()")
                if fact:
                    facts[fact].add(where)
        params = [p.split(":")[0].strip() for p in re.sub(r"<[^()]*>\(", "(", head).split("(", 1)[-1].split(")")[0].replace("\n", " ").split(",")]
        params = [p for p in params if re.match(r"\w+$", p)]
        for group in (("output", "first", "second"), ("text", "at"), ("out", "at"), ("number", "cycle"), ("size", "s"), ("s", "count"), ("arrived", "t")):
            if all(g in params for g in group):
                together[group].add(where)
        if re.search(r"(text|out): &mut \[u8\],\s*at: usize", head):
            points[6].append(f"{f}:{line}: fn {name}")
        if re.search(r"match (form|kind)\b|% 2 == 0", body) or (name == "main" and "differ" in text):
            points[7].append(f"{f}:{line}: fn {name}")

for key, where in sorted(shapes.items(), key=lambda kv: -len(kv[1])):
    if len(where) > 1:
        points[2].append(f"{len(where)} of {len(key)} tokens: " + ", ".join(where))
for fact, where in sorted(facts.items(), key=lambda kv: -len(kv[1])):
    if len(where) >= 3:
        points[5].append(f"{len(where)} require {fact}: " + " ".join(sorted(where)))
for group, where in together.items():
    if len(where) >= 3:
        points[5].append(f"{len(where)} take {', '.join(group)}: " + " ".join(sorted(where)))

for n, rows in points.items():
    print(f"== {n}: {len(rows)}")
    for row in rows:
        print(row)
