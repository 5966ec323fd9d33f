#!/usr/bin/env python3
"""Spells the repository's own definitions and lemmas in snake case, by the table respell.tsv beside this script.

usage: tools/respell.py [FOLDER]      FOLDER is the top of a checkout; with none, the one that this script lies in

Run once, right after the toolchain's own script and before any edit by hand. Whole words alone are turned: in .antt
files everywhere but in comments and texts, in .rt files only in clauses and in ghost lines. Functions of src/, texts,
inputs and outputs keep their names.
"""

import os
import re
import sys

HERE = os.path.dirname(os.path.realpath(__file__))
WORD = re.compile(r"[^\s(){}\[\].;,@\"«»|]+")
ANTT_QUIET = re.compile(r'("(?:[^"\\\n]|\\.)*"|(?:(?<=^)|(?<=[\s(){}.;,]))--[^\n]*)', re.M)
GHOST_USE = re.compile(r"ghost\s+use\b[^;]*;")
CLAUSE = re.compile(r"(?:\b(?:requires|ensures)\s*\*?\s*(?:\w+\s*)?|\bghost\s*(?:\w+\s*[:=]\s*)?)\{")


def table():
    with open(os.path.join(HERE, "respell.tsv"), encoding="utf-8") as f:
        return dict(line.rstrip("\n").split("\t") for line in f if line.strip())


def turned(text, rows):
    return WORD.sub(lambda m: rows.get(m.group(0), m.group(0)), text)


def antt(text, rows):
    parts = ANTT_QUIET.split(text)
    return "".join(p if i % 2 else turned(p, rows) for i, p in enumerate(parts))


def closing(text, start):
    depth = 1
    for i in range(start, len(text)):
        depth += {"{": 1, "}": -1}.get(text[i], 0)
        if depth == 0:
            return i
    return start


def rt(text, rows):
    spans = [m.span() for m in GHOST_USE.finditer(text)]
    spans += [(m.end(), closing(text, m.end())) for m in CLAUSE.finditer(text)]
    out, at = [], 0
    for start, end in sorted(spans):
        if start < at:
            continue
        out += [text[at:start], turned(text[start:end], rows)]
        at = end
    return "".join(out) + text[at:]


def main():
    top = sys.argv[1] if len(sys.argv) > 1 else os.path.dirname(HERE)
    rows, changed = table(), 0
    for folder, dirs, files in os.walk(os.path.join(top, "crates")):
        dirs[:] = sorted(d for d in dirs if d not in ("out", "target"))
        for name in sorted(files):
            turn = {".antt": antt, ".rt": rt}.get(os.path.splitext(name)[1])
            if turn is None:
                continue
            path = os.path.join(folder, name)
            with open(path, encoding="utf-8") as f:
                old = f.read()
            new = turn(old, rows)
            if new != old:
                changed += 1
                with open(path, "w", encoding="utf-8") as f:
                    f.write(new)
    print(f"respell: {changed} files changed")


if __name__ == "__main__":
    main()
