#!/usr/bin/env python3
"""Tests the syntax files of assembly texts: each byte has the class that the word rules give it.

    python3 -B tests/editors_assembly.py textmate|vim FILE..

The last line counts the bytes and those of a wrong class; the status is 1 if there are any.
"""
import re
import sys
import tempfile

from editors import groups_of, scopes_of

TABLES = "cell node type reg pend block entry".split()
INSTRUCTIONS = "add sub mul ltu eq and or xor shl shr mov idx halt ld_G ld_B st_G st_B jmp_G jmp_B bz_G bz_B".split()
REGISTERS = [f"r{number}" for number in range(64)]
# What each class is called in the grammar, and by Vim.
CLASSES = {
    "comment": ("comment.", "talftasmComment"),
    "table": ("storage.type.", "talftasmTable"),
    "instruction": ("keyword.", "talftasmInstruction"),
    "register": ("variable.language.", "talftasmRegister"),
    "type": ("support.type.", "talftasmType"),
    "colour": ("constant.language.", "talftasmColour"),
    "number": ("constant.numeric.", "talftasmNumber"),
    "name": ("variable.other.", ""),
}


def is_type(word):
    """Whether this is `int` or `code:T` after any number of `ref:`."""
    while word.startswith("ref:"):
        word = word[4:]
    return word == "int" or word.startswith("code:") and word[5:].isdigit()


def class_of(word, is_first):
    """The class of a word, by docs/ASSEMBLY.md."""
    if is_first:
        return "table" if word in TABLES else "instruction" if word in INSTRUCTIONS else "name"
    if word in REGISTERS:
        return "register"
    if is_type(word):
        return "type"
    if word in ("G", "B"):
        return "colour"
    return "number" if word.isdigit() and str(int(word)) == word else "name"


def classes(line):
    """The class of each byte of a line; empty for a blank."""
    if line.lstrip(" \t").startswith("#"):
        return ["comment"] * len(line)
    found, is_first = [], True
    for part in re.findall(r"[ \t]+|[^ \t]+", line):
        blank = part[0] in " \t"
        found += ["" if blank else class_of(part, is_first)] * len(part)
        is_first = is_first and blank
    return found


def shown(way, text):
    """An editor's class of each byte, including line ends."""
    if way == "textmate":
        return scopes_of(text, "talft-asm")
    with tempfile.TemporaryDirectory() as folder:
        with open(f"{folder}/text.asm", "w", encoding="ascii") as file:
            file.write(text)
        return groups_of(f"{folder}/text.asm", folder)


def main(way, *files):
    at_way, count, wrong = ("textmate", "vim").index(way), 0, 0
    for name in files:
        with open(name, encoding="ascii") as file:
            text = file.read()
        got = shown(way, text)
        wanted = [kind for line in text.splitlines() for kind in [*classes(line), ""]]
        if len(got) != len(wanted):
            print(f"{name}: {len(wanted)} bytes, and {len(got)} classes")
            wrong += len(wanted)
        for at, (kind, called) in enumerate(zip(wanted, got)):
            named = CLASSES[kind][at_way] if kind else ""
            if kind and (called != "" if named == "" else not called.startswith(named)):
                wrong += 1
                print(f"{name}: byte {at}, {text[at]!r}: {kind}, and not {called}")
        count += len(text)
    print(f"{count} bytes, {wrong} wrong")
    return 1 if wrong or not count else 0


if __name__ == "__main__":
    sys.exit(main(*sys.argv[1:]))
