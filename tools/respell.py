#!/usr/bin/env python3
"""Brings this repository's own definitions and fields to the spelling of today's Rattle: words in snake case. It runs once, at the top, after port.py.

The names are those of respell.tsv, the old one and the new one of a line: words that were in camel case, and fields of records that had dashes. They are changed
in specs/, in proofs/, in the clauses of src/ and in the must-fail edits; and in comments and documents, where a name is in camel case or stands in backquotes.
A third column "pages" marks what port.py had changed in the crates: only the edits, comments and documents are still to follow.
Functions of src/, exported names, strings, inputs and outputs keep their names.
"""

import glob
import os
import re

HERE = os.path.dirname(os.path.realpath(__file__))
NAMES, PAGES = {}, {}
with open(os.path.join(HERE, "respell.tsv"), encoding="utf-8") as f:
    for line in f:
        old, new, *only = line.rstrip("\n").split("\t")
        PAGES[old] = new
        if not only:
            NAMES[old] = new

# a name of antt: letters, digits, _, - and '
NAME = re.compile(r"(?<![\w'₀-₉-])[A-Za-z][\w'₀-₉]*(?:-[\w'₀-₉]+)*(?![\w'₀-₉-])")


def names(text, table=NAMES):
    return NAME.sub(lambda m: table.get(m.group(0), m.group(0)), text)


def prose(text):
    """A comment or a document: names in camel case, and all names in backquotes."""
    text = re.sub(r"`[^`\n]*`", lambda m: names(m.group(0), PAGES), text)
    return NAME.sub(lambda m: PAGES.get(m.group(0), m.group(0)) if re.match(r"[a-z]+[A-Z]", m.group(0)) else m.group(0), text)


def code(text, mark):
    lines = []
    for line in text.split("\n"):
        at = line.find(mark)
        lines.append(names(line) if at < 0 else names(line[:at]) + prose(line[at:]))
    return "\n".join(lines)


def rewrite(paths, turn):
    for path in sorted(paths):
        with open(path, encoding="utf-8") as f:
            old = f.read()
        new = turn(old)
        if new != old:
            with open(path, "w", encoding="utf-8") as f:
                f.write(new)


rewrite(glob.glob("crates/*/specs/**/*.antt", recursive=True) + glob.glob("crates/*/proofs/**/*.antt", recursive=True), lambda t: code(t, "--"))
rewrite(glob.glob("crates/*/src/**/*.rt", recursive=True), lambda t: code(t, "//"))
rewrite(glob.glob("crates/*/must-fail/*.edit"), lambda t: names(t, PAGES))
rewrite(glob.glob("docs/*.md") + ["README.md"], prose)
