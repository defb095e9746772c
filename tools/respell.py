#!/usr/bin/env python3
"""Respells the repository's own definitions and lemmas: words in snake case, types in upper camel case.

usage: python3 tools/respell.py [FOLDER]    (FOLDER: a checkout right after the kit's port script; the current one if absent)

The table beside it, respell.tsv, has a line for each name: old, new. Names are replaced as whole words in specs, proofs,
clauses, must-fail edits and docs. The goals that a proof file answers, and names of src/, are in no line of the table.
"""

import os
import re
import sys

PART = r"[\w'?→·-]"


def table():
    here = os.path.dirname(os.path.abspath(__file__))
    with open(os.path.join(here, "respell.tsv"), encoding="utf-8") as f:
        return dict(line.rstrip("\n").split("\t") for line in f if line.strip())


def texts(root):
    for top, kinds in (("crates", (".rt", ".antt", ".edit")), ("docs", (".md",))):
        for folder, dirs, files in os.walk(os.path.join(root, top)):
            dirs[:] = sorted(d for d in dirs if d != "out")
            for name in sorted(files):
                if name.endswith(kinds) and not name.startswith("PORT"):
                    yield os.path.join(folder, name)


def main(root):
    names = table()
    word = re.compile(f"(?<!{PART})(?:" + "|".join(sorted(map(re.escape, names), key=len, reverse=True)) + f")(?!{PART})")
    changed = 0
    for path in texts(root):
        with open(path, encoding="utf-8") as f:
            old = f.read()
        new = word.sub(lambda m: names[m[0]], old)
        if new != old:
            changed += 1
            with open(path, "w", encoding="utf-8") as f:
                f.write(new)
    print(f"respell: {len(names)} names, {changed} files changed")


if __name__ == "__main__":
    main(sys.argv[1] if len(sys.argv) > 1 else ".")
