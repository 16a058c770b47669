#!/usr/bin/env python3
"""Brings the names of this repository's own definitions and lemmas to the spelling of today's Rattle.

usage: python3 tools/spelling.py          rewrites the files of crates/ and docs/ and README.md below the working folder
       python3 tools/spelling.py --list   prints old and new names, and changes nothing

It is meant to run once, right after the kit's own script. Words are joined by `_`. A dash stays only in a lemma's name, and only
where it joins the names of two definitions, as in `length-firsts`. Functions of src/, strings, inputs and outputs keep their names.
"""

import collections
import os
import re
import sys

NAME = r"[^\s(){}\[\];:,.λ→]+"
HEAD = re.compile(r"^(\s*)((?:abbrev |unfoldable |pub |data |record )*)(" + NAME + r")(?:\s+[({][^=]*)? :(?:\s|$)")
# definitions of the standard library that lemmas of this repository name
STD = set("all append drop filter length map max min replicate reverse set sum take zip".split())
# definitions whose names are words of everyday use, and join no names
WORDS = set("all apart at below far there to".split())
# names that are no words joined by dashes
ONES = {"eqZ": "int_eq"}


def files(*endings):
    for top in ("crates", "docs", "README.md"):
        if os.path.isfile(top):
            yield top
        for folder, dirs, names in os.walk(top):
            dirs[:] = sorted(d for d in dirs if d != "out")
            for name in sorted(names):
                if name.endswith(endings):
                    yield os.path.join(folder, name)


def read(path):
    with open(path, encoding="utf-8") as f:
        return f.read()


def declared():
    """name -> the places of its declarations: (file, 'definition', 'lemma' or 'part')"""
    found = collections.defaultdict(list)
    for path in files(".antt"):
        specs = "/specs/" in path
        lemmas = re.match(r"crates/\w+/proofs/[A-Z]\w*\.antt$", path)
        if not (specs or lemmas):
            continue
        inside = ""
        for line in read(path).split("\n"):
            if line and not line[0].isspace():
                inside = re.sub(r"^(?:(?:pub|abbrev|unfoldable) )*", "", line).split(" ", 1)[0]
            m = HEAD.match(line)
            if not m or m[3] in ("let", "in", "use", "--", "module", "where"):
                continue
            part = bool(m[1]) and inside in ("data", "record")
            if m[1] and not part and inside != "module":
                continue
            found[m[3]].append((path, "part" if part else "definition" if specs else "lemma"))
    return found


def spelled(name, places, words):
    if name in ONES:
        return ONES[name]
    if "-" not in name.strip("-"):
        return name
    joined = name.replace("-", "_")
    if any(kind != "lemma" for _, kind in places):
        return joined
    for i, c in enumerate(name):
        left, right = name[:i].replace("-", "_"), name[i + 1:].replace("-", "_")
        if c == "-" and left in words and right in words:
            return left + "-" + right
    return joined


def table():
    found = declared()
    words = STD | {n.replace("-", "_") for n, at in found.items() if any(kind == "definition" for _, kind in at)}
    words -= WORDS
    new = {n: spelled(n, at, words) for n, at in found.items()}
    return {n: s for n, s in new.items() if s != n}, found, new


def clashes(found, new):
    """Two names that fall together, of one crate or of a crate and one below it; goals that have a declared name; imports from elsewhere."""
    back = collections.defaultdict(set)
    for n, s in new.items():
        back[s].add(n)
    for s, olds in sorted(back.items()):
        if len(olds) > 1:
            yield s + ": " + ", ".join(f"{o} ({', '.join(sorted({p for p, _ in found[o]}))})" for o in sorted(olds))
    for path in files(".antt", ".rt"):
        for m in re.finditer(r"use Rattle\.std\.[\w.]*\{([^}]*)\}", read(path)):
            taken = {x.strip().split(" as ")[-1] for x in m[1].split(",")}
            for n, s in new.items():
                if s != n and s in taken and re.search(r"(?<![\w'-])" + re.escape(n) + r"(?![\w'-])", read(path)):
                    yield f"{s}: {n} falls on an import of {path}"
        for m in re.finditer(r"goal\.(" + NAME + ")", read(path)):
            if new.get(m[1], m[1]) != m[1]:
                yield f"{m[1]}: a goal of {path}"


def turned(path, text, pattern, names):
    def turn(t):
        return pattern.sub(lambda m: names[m[0]], t)

    if path.endswith(".md"):
        return re.sub(r"`[^`\n]*`", lambda m: turn(m[0]), text)
    if path.endswith(".rt"):
        return "".join(p if i % 2 else turn(p) for i, p in enumerate(re.split(r'("(?:[^"\\\n]|\\.)*")', text)))
    return turn(text)


def main():
    names, found, new = table()
    bad = list(clashes(found, new))
    if "--list" in sys.argv:
        for n in sorted(names):
            print(n, names[n])
        print(*("clash: " + b for b in bad), sep="\n")
        return
    if bad:
        raise SystemExit("\n".join(bad))
    words = sorted(names, key=len, reverse=True)
    pattern = re.compile(r"(?<![\w'-])(?:" + "|".join(map(re.escape, words)) + r")(?![\w'-])")
    for path in files(".antt", ".rt", ".md"):
        old = read(path)
        text = turned(path, old, pattern, names)
        if text != old:
            with open(path, "w", encoding="utf-8") as f:
                f.write(text)


main()
