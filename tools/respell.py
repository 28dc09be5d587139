#!/usr/bin/env python3
"""Brings the repository's own definitions and lemmas to today's spelling, once, after the kit's own porting script.

usage: python3 tools/respell.py            at the top: rewrites crates/*/{src,specs,proofs}
       python3 tools/respell.py --list     prints each old and new name, and names that fall together

A word in camel case becomes snake case. A dash stays between two words that are both names of functions, as in
length-drop, where the name stands at the left edge of a file alone, and becomes an underscore elsewhere. Types, modules
and the functions of src/ stay as they are, and so do goals' names, which the checker makes, the comments and strings of
src/, and the lines of comment in specs/ and proofs/.
"""
import glob
import os
import re
import sys

FILES = sorted(glob.glob("crates/*/specs/**/*.antt", recursive=True) + glob.glob("crates/*/proofs/**/*.antt", recursive=True))
SOURCES = sorted(glob.glob("crates/*/src/**/*.rt", recursive=True))
TOP = re.compile(r"^(?:abbrev\s+|unfoldable\s+)?(?:pub\s+)?([^\s:(){}]+)\s+:\s")
INNER = re.compile(r"^\s+(?:abbrev\s+|unfoldable\s+)?(?:pub\s+)?([^\s:(){}]+)\s+:\s")
WORDS = {"length", "take", "drop", "append", "set", "cons", "cond", "map", "flat"}
# chosen by hand, where the plain rule would make two names one
CHOSEN = {"lines-of": "lines_of_lem", "fromRows": "from_rows_on"}


def snake(name):
    return re.sub(r"(?<=[a-z0-9])([A-Z])", lambda m: "_" + m.group(1).lower(), name)


def names():
    top, inner = set(), set()
    for p in FILES:
        goals = os.path.basename(p) in ("Answers.antt", "Invariants.antt")
        for line in open(p, encoding="utf-8"):
            m = TOP.match(line)
            if m and not line.startswith(("use", "--")):
                if not (goals and re.search(r":\s*goal\." + re.escape(m.group(1)), line)):
                    top.add(m.group(1))
            m = INNER.match(line)
            if m and not line.lstrip().startswith(("--", "let ", "λ")):
                inner.add(m.group(1))
    return top, inner


def plan():
    top, inner = names()
    words = WORDS | {snake(n) for n in top | inner if "-" not in n}
    new = {}
    for n in sorted(top | inner):
        if n[0].isupper() or not re.search(r"[a-z0-9][A-Z]|-", n) or not re.fullmatch(r"[A-Za-z0-9_\-]+", n):
            continue
        if n in CHOSEN:
            new[n] = CHOSEN[n]
            continue
        parts = snake(n).split("-")
        out = parts[0]
        for k in range(1, len(parts)):
            left, right = "-".join(parts[:k]), "-".join(parts[k:])
            keep = n in top and n not in inner and left in words and right in words
            out += ("-" if keep else "_") + parts[k]
        if out != n:
            new[n] = out
    return new


def replace(text, new, rt):
    if rt:
        pieces = re.split(r'(//[^\n]*|"(?:[^"\\]|\\.)*")', text)
    else:
        pieces = re.split(r"((?m:^\s*--[^\n]*))", text)
    token = re.compile(r"(?<![\w'\-])[A-Za-z][\w'\-]*(?![\w'\-])")
    for k in range(0, len(pieces), 2):
        pieces[k] = token.sub(lambda m: new.get(m.group(0), m.group(0)), pieces[k])
    return "".join(pieces)


def main():
    new = plan()
    if "--list" in sys.argv:
        for a, b in new.items():
            print(a, "->", b)
        used = {}
        token = re.compile(r"(?<![\w'\-])[A-Za-z][\w'\-]*(?![\w'\-])")
        for p in FILES + SOURCES:
            used[p] = set(token.findall(open(p, encoding="utf-8").read()))
        back = {}
        for a, b in new.items():
            back.setdefault(b, []).append(a)
            for p in used:
                if a in used[p] and b in used[p]:
                    print("TOGETHER", a, b, p)
        for b, many in back.items():
            if len(many) > 1:
                print("TOGETHER", many, b)
        return
    for p in FILES + SOURCES:
        old = open(p, encoding="utf-8").read()
        text = replace(old, new, p.endswith(".rt"))
        if text != old:
            open(p, "w", encoding="utf-8").write(text)


main()
