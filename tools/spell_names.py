#!/usr/bin/env python3
"""Brings the repository's own definitions, fields and laws to the spelling of today's Rattle, by tools/names.tsv: functions, fields and laws in snake case,
with a dash only where it joins the names of two definitions.

usage: python3 tools/spell_names.py        once, at the top, after port.py

Functions of src/, exported C names, strings, inputs and outputs keep their names. In .antt files a name is a whole word between spaces, brackets and dots;
in .rt files and in must-fail edits of them a name with a dash is turned in clauses only; in pages (.md) a name is turned between backticks only."""

import os
import re

HERE = os.path.dirname(os.path.realpath(__file__))
ROOT = os.path.dirname(HERE)
NAMES = dict(line.rstrip("\n").split("\t") for line in open(os.path.join(HERE, "names.tsv"), encoding="utf-8"))
# A word of antt's text that stands between its separators.
WORD = re.compile(r"[^\s(){}.;,@\"«»:`]+")
CLAUSE = re.compile(r"^\s*(requires|ensures|ghost)\b")
KEPT = re.compile(r'"[^"]*"')


def word(m):
    return NAMES.get(m.group(0), m.group(0))


def plain(m):
    w = m.group(0)
    return w if "-" in w or "'" in w or "′" in w else NAMES.get(w, w)


def antt(text):
    return WORD.sub(word, text)


def rt_line(line):
    if CLAUSE.match(line):
        return WORD.sub(word, line)
    # code and comments: only names that Rust could not have, as camel case with a small head
    return WORD.sub(lambda m: plain(m) if re.search(r"[a-z][A-Z]", m.group(0)) else m.group(0), line)


def rt(text):
    return "\n".join(rt_line(l) for l in text.split("\n"))


def edit(text):
    out, of_rt = [], True
    for l in text.split("\n"):
        m = re.match(r"(file|old|new):( ?)(.*)$", l)
        if m and m.group(1) == "file":
            of_rt = m.group(3).strip().endswith(".rt")
        elif m:
            l = f"{m.group(1)}:{m.group(2)}" + (rt_line(m.group(3)) if of_rt else antt(m.group(3)))
        out.append(l)
    return "\n".join(out)


def page(text):
    return re.sub(r"`[^`\n]+`", lambda m: WORD.sub(word, m.group(0)), text)


def main():
    for top in ("crates", "docs", "."):
        for folder, dirs, files in os.walk(os.path.join(ROOT, top)):
            if top == ".":
                dirs[:] = []
            dirs[:] = sorted(d for d in dirs if d not in ("out", ".git", "target"))
            for f in sorted(files):
                turn = antt if f.endswith(".antt") else rt if f.endswith(".rt") else edit if f.endswith(".edit") else page if f.endswith(".md") else None
                if turn is None:
                    continue
                path = os.path.join(folder, f)
                with open(path, encoding="utf-8") as it:
                    old = it.read()
                new = turn(old)
                if new != old:
                    with open(path, "w", encoding="utf-8") as it:
                        it.write(new)


if __name__ == "__main__":
    main()
