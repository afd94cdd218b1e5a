#!/usr/bin/env python3
"""Lists lines of proofs that are over 120 columns.

    tests/columns.py               prints a line for each of them
    tests/columns.py --fold FILE.. folds the long lines of these .antt files in place

A line is folded where a reader would fold it: after `in`, `;`, an arrow or a comma, or before an operator, at the
outermost level of brackets that has such a place. A long import becomes several of the same module.
"""
import glob
import os
import re
import sys

TOP = os.path.dirname(os.path.dirname(os.path.abspath(__file__)))
WIDTH = 120
IMPORT = re.compile(r"(?P<head>\s*(?:pub )?use [^{]*\{)(?P<names>.*)\}$")
BEFORE_OPERATOR = re.compile(r"(∙|≡|×|\+\+|&&|then |else |\| )")


def rank(before, after):
    """How bad it is to fold between two words: 0 is best."""
    if re.search(r"( in|;)$", before):
        return 0
    if re.search(r"(→|,|\.)$", before) or BEFORE_OPERATOR.match(after):
        return 1
    return 2 if before.endswith("=") else 4


def places(line, start):
    """The spaces of a line from `start` on at which it may be folded, each with the depth of its brackets and its rank."""
    depth, at = 0, start
    while at < len(line):
        sign = line[at]
        if sign == '"':
            at += 1
            while at < len(line) and line[at] != '"':
                at += 2 if line[at] == "\\" else 1
        elif sign in "([{":
            depth += 1
        elif sign in ")]}":
            depth -= 1
        elif sign == " ":
            yield at, depth, rank(line[start:at], line[at + 1:])
        at += 1


def folded_code(line):
    """A long line of code as several lines; all but the first are indented further."""
    start = len(line) - len(line.lstrip(" "))
    further = " " * (start + (2 if start else 4))
    while len(line) > WIDTH:
        found = [place for place in places(line, start) if start < place[0] <= WIDTH]
        found = [place for place in found if place[0] >= WIDTH * 5 // 12] or found
        if not found:
            break
        best, _, _ = min(found, key=lambda place: place[1] + place[2] / 2 - place[0] / (WIDTH / 2))
        yield line[:best].rstrip()
        line, start = further + line[best:].lstrip(), len(further)
    yield line


def folded_words(head, between, words, end):
    """Words as lines that begin with `head` and end with `end`."""
    now = ""
    for word in words:
        longer = f"{now}{between}{word}" if now else word
        if now and len(head) + len(longer) + len(end) > WIDTH:
            yield head + now + end
            longer = word
        now = longer
    yield head + now + end


def folded(line):
    """The lines for a line of an .antt file."""
    if len(line) <= WIDTH:
        return [line]
    if line.lstrip().startswith("-- "):
        head = line[:line.index("--")] + "-- "
        return folded_words(head, " ", line[len(head):].split(), "")
    found = IMPORT.match(line)
    if found:
        return folded_words(found["head"], ", ", found["names"].split(", "), "}")
    return folded_code(line)


def fold(path):
    """Folds the long lines of a file."""
    with open(path, encoding="utf-8") as file:
        old = file.read()
    new = "\n".join(part for line in old.split("\n") for part in folded(line))
    if new != old:
        with open(path, "w", encoding="utf-8") as file:
            file.write(new)


def check():
    """Prints what is too long, and returns whether anything is."""
    long = False
    for path in sorted(glob.glob(os.path.join(TOP, "crates/*/proofs/**/*.antt"), recursive=True)):
        with open(path, encoding="utf-8") as file:
            lines = file.read().splitlines()
        here = os.path.relpath(path, TOP)
        for number, line in enumerate(lines, 1):
            if len(line) > WIDTH:
                print(f"{here}:{number}: {len(line)} columns")
                long = True
    return long


def main(words):
    if words[:1] == ["--fold"]:
        for path in words[1:]:
            fold(path)
    elif words:
        sys.exit(__doc__)
    else:
        sys.exit(check())


if __name__ == "__main__":
    main(sys.argv[1:])
