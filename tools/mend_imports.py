#!/usr/bin/env python3
"""Mends the imports of every crate after laws have moved from a crate's specs/ to its proofs/.

usage: python3 tools/mend_imports.py     at the top of the repository

A file of proofs/ whose first line is `-- Laws of specs/M.antt` (or `-- Laws that stood in ..`) has the laws of that file. Where some file
imports one of them from specs/M, the import is turned to it. Import lists are left with the names that their file uses.
"""

import os
import re

WORD = r"[^\s(){};,.\"«»@→]+"
DECLARED = re.compile(rf"^(?:  )?(?:(?:unfoldable|abbrev|pub|ruleset) )*(?:(?:record|data) )?({WORD})(?: \{{[^{{}}\n]*\}})* (?::|=|where)")
USE = re.compile(r"^((?:pub |ghost )*use )([^\s{]+?)\.\{([^}]*)\}(;?)$")
FIRST = re.compile(r"-- Laws (?:of|that stood in) specs/(\w+)\.antt")


def read(path):
    with open(path, encoding="utf-8") as f:
        return f.read()


def declared(path):
    lines = read(path).split("\n") if os.path.exists(path) else []
    types = {m[1] for l in lines for m in [re.match(rf"^(?:pub )?(?:record|data) ({WORD})", l)] if m}
    return types | {m[1] for l in lines for m in [DECLARED.match(l)] if m}


def homes():
    """Each path of specs/ whose laws moved: their path, what is left, what moved."""
    out = {}
    for crate in sorted(os.listdir("crates")):
        proofs = os.path.join("crates", crate, "proofs")
        for f in sorted(os.listdir(proofs)) if os.path.isdir(proofs) else []:
            first = FIRST.match(read(os.path.join(proofs, f))) if f.endswith(".antt") else None
            if first:
                specs = os.path.join("crates", crate, "specs", first[1] + ".antt")
                out[f"Rattle.{crate}.specs.{first[1]}"] = (f"Rattle.{crate}.proofs.{f[:-5]}", declared(specs), declared(os.path.join(proofs, f)))
    return out


def turned(line, home, own):
    m = USE.match(line)
    if not m or m[2] not in home:
        return [line]
    to, left, moved = home[m[2]]
    names = [n.strip() for n in m[3].split(",")]
    gone = [n for n in names if n.split(" as ")[0] in moved - left]
    out = []
    if [n for n in names if n not in gone]:
        out.append(f"{m[1]}{m[2]}.{{{', '.join(n for n in names if n not in gone)}}}{m[4]}")
    if gone and own != to:
        out.append(f"{m[1]}{to}.{{{', '.join(gone)}}}{m[4]}")
    return out


def narrow(lines):
    body = "\n".join(l for l in lines if not l.startswith(("use ", "pub use ", "--")))
    words = set(re.findall(WORD, body))

    def used(name):
        name = name.split(" as ")[-1]
        if "◌" in name:
            return name in words or all(part in words for part in name.split("◌") if part)
        return name in words or not re.fullmatch(r"[\w'₀-₉-]+", name)

    for l in lines:
        m = USE.match(l)
        if not m or m[1] != "use ":
            yield l
            continue
        names = [n.strip() for n in m[3].split(",") if used(n.strip())]
        if names:
            yield f"use {m[2]}.{{{', '.join(names)}}}"


def main():
    home = homes()
    for folder, inner, files in os.walk("crates"):
        inner[:] = sorted(d for d in inner if d != "out")
        for f in sorted(files):
            if not f.endswith((".antt", ".rt")):
                continue
            path = os.path.join(folder, f)
            own = "Rattle." + path[len("crates/") : -len(".antt")].replace("/", ".")
            text = read(path)
            lines = [t for l in text.split("\n") for t in turned(l, home, own)]
            if f.endswith(".antt"):
                lines = list(narrow(lines))
            if "\n".join(lines) != text:
                with open(path, "w", encoding="utf-8") as out:
                    out.write("\n".join(lines))


main()
