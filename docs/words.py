#!/usr/bin/env python3
"""Counts the words of README and docs/ that are written by hand. The gate allows 40,000.

    docs/words.py [--each]      the sum, or each document with its words

A word has a letter or a digit, so the lines of a table do not count. Text made by scripts is left out: whole documents, and
what is between `<!-- .. -->` and `<!-- end .. -->`.
"""
import os
import re
import sys

TOP = os.path.dirname(os.path.dirname(os.path.abspath(__file__)))
MADE = {"CRATES.md", "READING.md", "TRACE.md"}
WORD = re.compile(r"\S*[^\W_]\S*")
PART = re.compile(r"<!-- (?!end).*? -->\n.*?<!-- end.*? -->", re.DOTALL)


def documents():
    yield "README.md"
    for name in sorted(os.listdir(os.path.join(TOP, "docs"))):
        if name.endswith(".md") and name not in MADE:
            yield f"docs/{name}"


def words(path):
    with open(os.path.join(TOP, path), encoding="utf-8") as file:
        return len(WORD.findall(PART.sub("", file.read())))


def main(options):
    counts = {path: words(path) for path in documents()}
    if options == ["--each"]:
        for path, count in counts.items():
            print(f"{count:7,} {path}")
    elif options:
        sys.exit(__doc__)
    print(f"{sum(counts.values()):7,}")


if __name__ == "__main__":
    main(sys.argv[1:])
