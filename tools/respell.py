#!/usr/bin/env python3
"""Brings this repository's own definitions and lemmas to the spelling of today's Rattle: words in snake case.

usage: python3 tools/respell.py [FOLDER]      FOLDER: the top of a checkout after port.py, else this one

tools/respelling.tsv has the names, old and new, a pair on a line. A name is turned
  - in specs/ and proofs/ (.antt), with its comments, where a name with a dash stays in a comment (it may be a word there),
  - in src/ (.rt), but not within a string, where a name with a dash stays in a comment too,
  - in README.md and docs/, between backticks.
Names of goals that Rattle makes, functions of src/, inputs and outputs are not in the table.
"""
import os
import re
import sys

HERE = os.path.dirname(os.path.realpath(__file__))
top = sys.argv[1] if len(sys.argv) > 1 else os.path.dirname(HERE)
with open(os.path.join(HERE, "respelling.tsv"), encoding="utf-8") as f:
    new_of = dict(line.rstrip("\n").split("\t") for line in f)
word = re.compile(r"[A-Za-z0-9_◌ℕℤ][\w'\-]*")


def turn(text, dashes):
    return word.sub(lambda m: new_of.get(m[0], m[0]) if dashes or "-" not in m[0] else m[0], text)


def antt(text):
    lines = []
    for line in text.split("\n"):
        code, dash, comment = line.partition("--")
        lines.append(turn(code, True) + dash + turn(comment, False))
    return "\n".join(lines)


def rt(text):
    lines = []
    for line in text.split("\n"):
        parts = re.split(r'("(?:\\.|[^"\\])*"|//.*)', line)
        lines.append("".join(p if p.startswith('"') else turn(p, not p.startswith("//")) for p in parts))
    return "\n".join(lines)


def page(text):
    return re.sub(r"`[^`\n]+`", lambda m: turn(m[0], False), text)


def rewrite(path, how):
    with open(path, encoding="utf-8") as f:
        was = f.read()
    now = how(was)
    if now != was:
        with open(path, "w", encoding="utf-8") as f:
            f.write(now)


for folder, dirs, files in os.walk(os.path.join(top, "crates")):
    dirs[:] = sorted(d for d in dirs if d != "out")
    for name in sorted(files):
        path = os.path.join(folder, name)
        if name.endswith(".antt"):
            rewrite(path, antt)
        elif name.endswith(".rt"):
            rewrite(path, rt)
pages = [os.path.join(top, "README.md")]
pages += [os.path.join(top, "docs", n) for n in sorted(os.listdir(os.path.join(top, "docs"))) if n.endswith(".md")]
for path in pages:
    rewrite(path, page)
