#!/usr/bin/env python3
"""Brings the repository's own definitions and lemmas to one spelling: snake case, and camel case for types and facts.

usage: python3 tools/respell.py        at the top of the repository, once, after the toolchain's script

A name with a dash that a file of specs/ or proofs/ declares is written with underscores or, where it begins with a capital,
in camel case: `line-feed` is `line_feed`, `Well-formed` is `WellFormed`. Names that the toolchain makes or that its library
declares keep their dashes, as do comments and strings. It stops before it writes where two names would fall together.
"""

import glob
import re
import sys

DASHED = r"[A-Za-z][\w']*(?:-[\w']+)+"
TOKEN = re.compile(r"(?<![\w'·-])" + DASHED + r"(?![\w'-])")
HEAD = re.compile(r"^\s*(?:abbrev\s+|unfoldable\s+)?(?:pub\s+)?(?:record\s+|data\s+|ruleset\s+)?([^:{}()=]*?)\s*(?::|\(|\{|=)")
LOCAL = re.compile(r"(?:let|λ|\()\s*\(?(" + DASHED + r")(?=[\s)=:.,])")
# goals, invariants and measures, by the names that the toolchain gives them in the files of a function
MADE = re.compile(r"^(returns|loop|invariant|decreases|then|else|if|in|overflow|bounds|invariant_of|branch)-|-(requires|preserved|init|smaller)(-|$)")


def files(*patterns):
    found = []
    for p in patterns:
        found += glob.glob(p, recursive=True)
    return sorted(set(f for f in found if "/out/" not in f))


def code(line, comment):
    """The line's part before its comment, and the rest."""
    i = line.find(comment)
    return (line, "") if i < 0 else (line[:i], line[i:])


def declared():
    names = set()
    for f in files("crates/*/specs/**/*.antt", "crates/*/proofs/**/*.antt"):
        answers = f.endswith(("/Answers.antt", "/Invariants.antt"))
        here = set()
        for line in open(f, encoding="utf-8"):
            if line.startswith("use "):
                continue
            text = code(line, "--")[0]
            m = HEAD.match(text)
            if m:
                here |= {w for w in m[1].split() if re.fullmatch(DASHED, w)}
            here |= set(LOCAL.findall(text))
            # binders: (a-b c-d : T)
            for binder in re.findall(r"[({]([^(){}:]*):", text):
                words = binder.split()
                if words and all(re.fullmatch(r"[\w'-]+", w) for w in words):
                    here |= {w for w in words if re.fullmatch(DASHED, w)}
        names |= {n for n in here if not (answers and MADE.search(n))}
    return names


def library():
    names = set()
    for f in files("crates/**/*.antt", "crates/**/*.rt"):
        for line in open(f, encoding="utf-8"):
            m = re.match(r"^\s*(?:ghost )?use ((?:Rattle\.std|borrow|mathlib|lib|native)[\w.]*)\.\{(.*)\}", line)
            if m:
                names |= {w for w in re.findall(r"[\w'◌-]+", m[2])}
    return names


def spelled(name):
    if name[0].isupper():
        return "".join(p[:1].upper() + p[1:] for p in re.split(r"[-_]", name))
    return name.replace("-", "_")


def words(f):
    return set(re.findall(r"[A-Za-z_][\w']*", open(f, encoding="utf-8").read()))


def main():
    std = library()
    turn = {n: spelled(n) for n in sorted(declared() - std)}
    bad = [n for n in sorted(declared() & std)]
    if bad:
        print("both the library's and ours, left:", ", ".join(bad))
    back = {}
    for n, t in turn.items():
        back.setdefault(t, []).append(n)
    for t, ns in back.items():
        if len(ns) > 1:
            print("fall together:", ns, "->", t)
            return 1
    clash = 0
    for f in files("crates/*/specs/**/*.antt", "crates/*/proofs/**/*.antt", "crates/*/src/**/*.rt"):
        text = open(f, encoding="utf-8").read()
        used = {turn[m[0]] for m in TOKEN.finditer(text) if m[0] in turn}
        for t in sorted(used & words(f)):
            print("look:", f, "has both", t, "and", back[t][0])
            clash += 1
    if clash and "--anyway" not in sys.argv:
        return 1
    n = 0
    for f in files("crates/*/specs/**/*.antt", "crates/*/proofs/**/*.antt", "crates/*/src/**/*.rt"):
        mark = "--" if f.endswith(".antt") else "//"
        old = open(f, encoding="utf-8").read()
        new = ""
        for line in old.splitlines(keepends=True):
            text, comment = code(line, mark)
            pieces = re.split(r'("(?:[^"\\]|\\.)*")', text)
            for i in range(0, len(pieces), 2):
                pieces[i] = TOKEN.sub(lambda m: turn.get(m[0], m[0]), pieces[i])
            new += "".join(pieces) + comment
        if new != old:
            open(f, "w", encoding="utf-8").write(new)
            n += 1
    print(f"{len(turn)} names, {n} files")
    return 0


if __name__ == "__main__":
    raise SystemExit(main())
