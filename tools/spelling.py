#!/usr/bin/env python3
"""Brings the definitions and lemmas of this repository to snake case, by the rows of spelling.tsv: old, new, and 'field' for a field of a record.

usage: tools/spelling.py            at the top of the repository, once, after the kit's port.py

It turns whole words of .antt and .rt files in crates/, and code spans of README.md and docs/*.md. Strings, the code of functions, and the labels
that Rattle makes for a function's proof stay. A lemma that would have its definition's name ends in _lem.
"""

import os
import re
import sys

WORD = r"[^\s(){}.;,@\"«»\[\]`]+"
TOKEN = re.compile(r"--[^\n]*|\"(?:[^\"\\\n]|\\.)*\"|\.?" + WORD)
RUST = re.compile(r"//[^\n]*|b?\"(?:[^\"\\]|\\.)*\"|b?'(?:[^'\\]|\\.)'|\.?" + WORD)
SPAN = re.compile(r"`[^`\n]+`")
CAMEL = re.compile(r"[a-z][a-zA-Z0-9]*[A-Z][a-zA-Z0-9]*")
OF_A_GOAL = re.compile(r"(?m)^ *(" + WORD + r") : tie\.")


def rows():
    with open(os.path.join(os.path.dirname(os.path.abspath(__file__)), "spelling.tsv"), encoding="utf-8") as f:
        return [line.rstrip("\n").split("\t") for line in f]


TABLE = {r[0]: r[1] for r in rows()}
FIELDS = {r[0] for r in rows() if len(r) > 2}


def in_span(text):
    return re.sub(WORD, lambda m: TABLE.get(m[0], m[0]), text)


def in_comment(text):
    text = SPAN.sub(lambda m: in_span(m[0]), text)
    return CAMEL.sub(lambda m: TABLE.get(m[0], m[0]), text)


def turned(text, pattern, of_a_function):
    kept = set(OF_A_GOAL.findall(text)) if of_a_function else set()

    def one(m):
        it = m[0]
        if it.startswith(("--", "//")):
            return in_comment(it)
        if it.startswith(('"', 'b"', "'", "b'")):
            return it
        dot, word = ("." if it[0] == "." else ""), it.lstrip(".")
        if word not in TABLE or word in kept or dot and of_a_function and word not in FIELDS:
            return it
        return dot + TABLE[word]

    return pattern.sub(one, text)


def rewrite(path, text_of):
    with open(path, encoding="utf-8") as f:
        old = f.read()
    new = text_of(old)
    if new != old:
        with open(path, "w", encoding="utf-8") as f:
            f.write(new)


def main():
    if len(sys.argv) > 1:
        sys.exit(__doc__)
    for folder, below, files in os.walk("crates"):
        below[:] = sorted(it for it in below if it != "out")
        for name in sorted(files):
            path = os.path.join(folder, name)
            parts = path.split(os.sep)
            of_a_function = parts[2] == "proofs" and len(parts) > 4
            if name.endswith(".antt"):
                rewrite(path, lambda t: turned(t, TOKEN, of_a_function))
            elif name.endswith(".rt"):
                rewrite(path, lambda t: turned(t, RUST, False))
    pages = ["README.md"] + [os.path.join("docs", it) for it in os.listdir("docs") if it.endswith(".md")]
    pages += [os.path.join("docs/requests", it) for it in os.listdir("docs/requests") if it.endswith(".md")]
    for page in pages:
        rewrite(page, lambda t: SPAN.sub(lambda m: in_span(m[0]), t))


if __name__ == "__main__":
    main()
