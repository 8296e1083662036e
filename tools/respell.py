#!/usr/bin/env python3
"""Respells this repository's own definitions, fields, constructors and lemmas as today's Rattle spells names: snake case
throughout, by the rows of respell.tsv beside this file. It was run once, after the kit's port.py, at the top of the
checkout; docs/PORT.md names the commit.

usage: tools/respell.py             turns the crates: proof files, definitions, clauses
       tools/respell.py docs FILE.. turns the code spans of pages

A row of the table is OLD<tab>NEW, or OLD<tab>NEW<tab>PATH for a name that turns only in files whose path begins so.
"""

import os
import re
import sys

HERE = os.path.dirname(os.path.realpath(__file__))
WORD = re.compile(r'[^\s(){}.;,@"«»]+')
QUIET = re.compile(r'"(?:[^"\\\n]|\\.)*"|(?<![^\s(){}.;,@"«»])--[^\n]*|\{-.*?-\}', re.S)
QUIET_RT = re.compile(r'b?"(?:[^"\\\n]|\\.)*"|//[^\n]*')
SPAN = re.compile(r"`[^`\n]+`")
NAME = re.compile(r"(?<![\w'-])[A-Za-z][\w'-]*")


def rows():
    with open(os.path.join(HERE, "respell.tsv"), encoding="utf-8") as f:
        return [line.rstrip("\n").split("\t") for line in f if line.strip()]


def table_for(path):
    return {r[0]: r[1] for r in sorted(rows(), key=len) if len(r) == 2 or path.startswith(r[2])}


def turned(text, quiet, table):
    camel = {k: v for k, v in table.items() if re.search(r"[a-z0-9][A-Z]", k)}
    in_span = lambda m: NAME.sub(lambda w: table.get(w[0], w[0]), m[0])

    def comment(t):
        if t[0] in '"b':
            return t
        t = NAME.sub(lambda w: camel.get(w[0], w[0]), t)
        return SPAN.sub(in_span, t)

    out, at = [], 0
    for m in quiet.finditer(text):
        out.append(WORD.sub(lambda w: table.get(w[0], w[0]), text[at : m.start()]))
        out.append(comment(m[0]))
        at = m.end()
    out.append(WORD.sub(lambda w: table.get(w[0], w[0]), text[at:]))
    return "".join(out)


def rewrite(path, how):
    with open(path, encoding="utf-8") as f:
        old = f.read()
    new = how(old)
    if new != old:
        with open(path, "w", encoding="utf-8") as f:
            f.write(new)


def crates():
    for folder, dirs, files in os.walk("crates"):
        dirs[:] = sorted(d for d in dirs if d != "out")
        for name in sorted(files):
            path = os.path.join(folder, name)
            quiet = QUIET if name.endswith(".antt") else QUIET_RT if name.endswith(".rt") else None
            if quiet:
                table = table_for(path)
                rewrite(path, lambda t: turned(t, quiet, table))


def docs(paths):
    for path in paths:
        table = table_for(path)
        in_span = lambda m: NAME.sub(lambda w: table.get(w[0], w[0]), m[0])
        rewrite(path, lambda t: SPAN.sub(in_span, t))


if __name__ == "__main__":
    if len(sys.argv) == 1:
        crates()
    elif sys.argv[1] == "docs":
        docs(sys.argv[2:])
    else:
        sys.exit(__doc__)
