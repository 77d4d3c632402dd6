#!/usr/bin/env python3
"""Respells the repository's own definitions, lemmas and fields of proofs to snake case, once, after /opt/rattle/port/port.py.

usage: python3 tools/respell.py         at the top of the repository
       python3 tools/respell.py list    prints what would be respelled, and where two names would fall together

A dash is kept where it joins the names of two functions, as in `length-put` (the length of what `put` makes): the names in KEPT.
Names that Rattle makes for its goals (`returns-in_ok`), strings, comments and the code of src/ are left as they are;
in a comment a name is respelled only between backticks. Functions of src/ keep their names.
"""

import collections
import os
import re
import sys

NAME = r"[^\s(){}\[\];,.:@\"`|]+"
DECLARED = re.compile(r"^\s*(?:(?:pub|abbrev|unfoldable|data|record)\s+)*(" + NAME + r")\s+:(?:\s(.*))?$")
TOKEN = re.compile(r"(?<![^\s(){}\[\];,.:@\"`|])(" + NAME + r")")

# a dash that joins the names of two functions
KEPT = {
    "length-joined", "length-put", "length-rows", "length-zeros", "length-stored",
    "ok_or-kind", "take-over", "put-append", "over-append", "drop-joined", "nth-map", "nth-rows",
}
# names that hold the old spelling of a word of std
OTHERWISE = {"okOr-kind": "ok_or-kind"}


def texts(root):
    for folder, dirs, files in os.walk(os.path.join(root, "crates")):
        dirs[:] = sorted(d for d in dirs if d != "out")
        for f in sorted(files):
            if f.endswith((".rt", ".antt", ".edit")):
                yield os.path.join(folder, f)


def read(path):
    with open(path, encoding="utf-8") as f:
        return f.read()


def respelled(name):
    if name in KEPT:
        return name
    return OTHERWISE.get(name, name.replace("-", "_"))


def declared(root):
    """The names that this repository's .antt files declare with a dash, but for answers to goals."""
    found = collections.defaultdict(set)
    for path in texts(root):
        if not path.endswith(".antt"):
            continue
        for line in read(path).splitlines():
            m = DECLARED.match(line)
            if m and "-" in m.group(1).strip("-") and not (m.group(2) or "").startswith("goal.") and m.group(1) != "--":
                found[m.group(1)].add(os.path.relpath(path, root))
    return {n: w for n, w in found.items() if respelled(n) != n}


def parts(line, mark):
    """A line as (text, comment); a comment starts at the mark at a word's start."""
    m = re.search(r"(?<!\S)" + re.escape(mark) + r"(?=\s|$)", line)
    return (line, "") if not m else (line[: m.start()], line[m.start():])


def turned(path, text, names):
    def one(m):
        return respelled(m.group(1)) if m.group(1) in names else m.group(1)

    mark = "//" if path.endswith(".rt") else "--"
    out = []
    for line in text.split("\n"):
        code, comment = parts(line, mark)
        pieces = re.split(r'("(?:[^"\\]|\\.)*")', code) if path.endswith(".rt") else [code]
        code = "".join(p if p.startswith('"') else TOKEN.sub(one, p) for p in pieces)
        comment = re.sub(r"`([^`]*)`", lambda m: "`" + TOKEN.sub(one, m.group(1)) + "`", comment)
        out.append(code + comment)
    return "\n".join(out)


def main():
    root = os.getcwd()
    names = declared(root)
    new = collections.defaultdict(set)
    for n in names:
        new[respelled(n)].add(n)
    used = set()
    for path in texts(root):
        if path.endswith(".antt"):
            used |= {w for line in read(path).splitlines() for w in TOKEN.findall(parts(line, "--")[0])}
    if sys.argv[1:] == ["list"]:
        for n in sorted(names):
            print(n, "->", respelled(n), sorted(names[n])[0])
        for w in sorted(new):
            if len(new[w]) > 1:
                print("together:", w, sorted(new[w]))
            if w in used:
                print("taken:", w, "by a name of the files;", sorted(new[w]))
        return
    for path in texts(root):
        text = read(path)
        changed = turned(path, text, names)
        if changed != text:
            with open(path, "w", encoding="utf-8") as f:
                f.write(changed)
    print(f"respelled: {len(names)} names")


main()
