#!/usr/bin/env python3
"""named_crates.py: prints each crate that a line of crates.txt names and no file of that line's crate does, and fails where there is one. Files are the crate's .rt and .antt
files, without their comments, and its edits. A crate that a file names and the line does not, the check itself refuses."""
import pathlib
import re
import sys

COMMENTS = {".rt": r"//.*", ".antt": r"--.*", ".edit": r"^#.*"}
top = pathlib.Path(__file__).resolve().parent.parent


def text_of(crate):
    """What stands in the files of a crate."""
    files = [it for it in (top / "crates" / crate).rglob("*") if it.suffix in COMMENTS and "out" not in it.relative_to(top).parts]
    return "\n".join(re.sub(COMMENTS[it.suffix], "", it.read_text(), flags=re.M) for it in sorted(files))


def is_named(library, text):
    """Whether a path begins with the library's name, or one of its modules stands in a text of proofs."""
    return re.search(rf"(?<![\w:.]){library}::|\buse {library};|\bRattle\.{library}\b", text) is not None


unnamed = 0
for line in (top / "crates.txt").read_text().splitlines():
    head, _, libraries = line.partition("#")[0].partition(":")
    text = text_of(head.split()[0]) if libraries else ""
    for library in libraries.split():
        if not is_named(library, text):
            print(f"{head.split()[0]}: no file names {library}")
            unnamed += 1
sys.exit(1 if unnamed else 0)
