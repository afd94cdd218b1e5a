#!/usr/bin/env python3
"""Lists lemmas and definitions that occur in more than one proof file.

    tests/statements.py

A lemma in crates/*/proofs/ is read up to its first equation, an `abbrev` with its equations. Two are the same if they
differ only in bound names and refer to the same definitions: a name from this repository is identified by its module.
Prints a line for each group, with its places.
"""
import collections
import glob
import os
import re
import sys

TOP = os.path.dirname(os.path.dirname(os.path.abspath(__file__)))
HEAD = re.compile(r"^((?:(?:abbrev|unfoldable|pub|inline) )*)([^\s(){}:=]+) :(?:\s|$)")
NO_LEMMA = re.compile(r"^(?:use|pub use|mod|pub mod|module|record|data|pub record|pub data|where|mutual)\b")
ITEM = re.compile(r"^(?:(?:abbrev|unfoldable|inline|pub|record|data) )*([^\s(){}:=]+) (?::|[({])")
USE = re.compile(r"^(?:pub )?use (\S+?)(?:\.\{([^}]*)\})?(?: as (\S+))?$")
TOKEN = re.compile(r"[(){}\[\],.;]|[^\s(){}\[\],.;]+")
BINDER = re.compile(r"[({]\s*((?:[^\s(){}:]+\s+)+):")
LEAST = 5


def imported(lines):
    """The names from this repository that a file imports, each with its origin."""
    names = {}
    for line in lines:
        use = USE.match(line)
        if not use or not use.group(1).startswith("Rattle.ft_"):
            continue
        module, items, alias = use.groups()
        if items is None:
            names[alias or module.split(".")[-1]] = module
            continue
        for item in items.split(","):
            name, _, other = item.strip().partition(" as ")
            names[other or name] = f"{module}.{name}"
    return names


def defined(lines, module):
    """The names that a file defines."""
    heads = (ITEM.match(line) for line in lines if not line.startswith("--"))
    return {head.group(1): f"{module}.{head.group(1)}" for head in heads if head}


def after(lines, at):
    """The end of the lines that belong to the line before `at`."""
    while at < len(lines) and lines[at].startswith(" "):
        at += 1
    return at


def statements(lines):
    """The lemmas of a file, each with its name, its line and its statement."""
    for start, line in enumerate(lines):
        head = HEAD.match(line)
        if not head or NO_LEMMA.match(line):
            continue
        name, end = head.group(2), after(lines, start + 1)
        text = [line[head.end():]] + lines[start + 1:end]
        while "abbrev " in head.group(1) and end < len(lines) and lines[end].startswith(name + " "):
            start, end = end, after(lines, end + 1)
            text += lines[start:end]
        yield name, line, " ".join(text)


def normal(name, statement, known):
    """The statement with its bound names numbered in order, and all other names as `known` has them."""
    bound = {name: "itself"}
    for group in BINDER.findall(statement):
        for binder in group.split():
            bound.setdefault(binder, f"#{len(bound)}")
    for binder in re.findall(r"λ\s+\(?([^\s.():]+)", statement):
        bound.setdefault(binder, f"#{len(bound)}")
    tokens = TOKEN.findall(statement)
    fields = (before == "." for before in [""] + tokens)
    return " ".join(
        token if is_field else bound.get(token) or known.get(token, token) for token, is_field in zip(tokens, fields)
    )


def places():
    """Each statement in the repository, with the file, the line and the name of each of its places."""
    found = collections.defaultdict(list)
    for path in sorted(glob.glob(os.path.join(TOP, "crates/*/proofs/**/*.antt"), recursive=True)):
        with open(path, encoding="utf-8") as file:
            lines = file.read().split("\n")
        place = os.path.relpath(path, TOP)
        known = {**defined(lines, place), **imported(lines)}
        for name, line, statement in statements(lines):
            key = normal(name, statement, known)
            if len(key.split()) >= LEAST:
                found[key].append((place, lines.index(line) + 1, name))
    return found


def main():
    count = 0
    for _, found in sorted(places().items(), key=lambda item: item[1]):
        if len({path for path, _, _ in found}) > 1:
            count += 1
            print(f"{found[0][2]}: " + ", ".join(f"{path}:{line}" for path, line, _ in found))
    if count:
        print(f"{count} statements occur in more than one file")
    sys.exit(count != 0)


if __name__ == "__main__":
    main()
