#!/usr/bin/env python3
"""Respells this repository's own definitions and lemmas, by the table beside it (respell.txt: the old name, the new one).

usage: python3 tools/respell.py [FOLDER]      the top of a checkout on which the kit's port.py has run; without one, this checkout

Functions in snake case, as CONTRACT_STYLE.md has it. What has dashes is renamed in .antt files, in edits, and in comments and documents between
backticks; names with a capital inside wherever they stand, for nothing in the code is spelled so. Names of src/, exported names, strings, inputs and
outputs are not in the table.
"""
import pathlib
import re
import sys

TABLE = pathlib.Path(__file__).with_name("respell.txt")
PLACES = ("crates/*/specs/**/*.antt", "crates/*/proofs/**/*.antt", "crates/*/src/**/*.rt", "crates/*/must-fail/*.edit", "README.md", "docs/**/*.md")


def whole(names):
    """The names as whole words; one that begins like a longer name is not found in it."""
    longest = sorted(names, key=len, reverse=True)
    return re.compile(r"(?<![\w'\-])(" + "|".join(map(re.escape, longest)) + r")(?![\w']|-(?=[\w]))")


def main():
    root = pathlib.Path(sys.argv[1] if len(sys.argv) > 1 else pathlib.Path(__file__).resolve().parent.parent)
    names = dict(line.split() for line in TABLE.read_text(encoding="utf-8").splitlines())
    humps = whole([n for n in names if "-" not in n])
    dashes = whole([n for n in names if "-" in n])
    every = whole(names)

    def new(found):
        return names[found.group(1)]

    changed = 0
    for place in PLACES:
        for path in sorted(root.glob(place)):
            old = path.read_text(encoding="utf-8")
            if path.suffix in (".antt", ".edit"):
                text = every.sub(new, old)
            else:
                text = humps.sub(new, old)
                text = re.sub(r"`[^`\n]+`", lambda ticked: dashes.sub(new, ticked.group(0)), text)
            if text != old:
                path.write_text(text, encoding="utf-8")
                changed += 1
    print(f"respell: {changed} files")


main()
