#!/usr/bin/env python3
"""Schedules the blocks of an assembly text as the definition of a schedule says, by exchanging neighbours until no
exchange is permitted: `python3 tests/schedule.py TEXT` writes the text. It knows nothing about how the program finds
the order."""
import sys

FIXED = ("jmp_", "bz_", "halt")


def registers(words):
    """Returns the register that an instruction writes, if any, and those that it reads."""
    named = [word for word in words[1:] if word[0] == "r" and word[1:].isdigit()]
    if words[0] == "mov":
        return named[0], []
    if words[0].startswith("st_"):
        return None, named
    return named[0], named[1:]


def leads(words):
    """Returns whether an instruction is leading. With two registers, and for `idx`, the first register read decides."""
    name = words[0]
    if name[:3] in ("ld_", "st_"):
        return name[3] == "G"
    colours = [word for word in words[1:] if word in ("G", "B")]
    return colours == ["G"] if colours else int(words[2][1:]) < 32


def permitted(first, second, queued):
    """Returns whether two neighbours may be exchanged, given the number of pairs queued before the first."""
    if first[0].startswith(FIXED) or second[0].startswith(FIXED) or leads(first) or not leads(second):
        return False
    (writes, reads), (writes_2, reads_2) = registers(first), registers(second)
    if writes is not None and writes in [writes_2, *reads_2] or writes_2 is not None and writes_2 in [writes, *reads]:
        return False
    return not (first[0] == "st_B" and second[0] == "st_G") or queued <= 7


def scheduled(block, rows):
    """Returns the instructions of a block, given the number of queue rows of its code type, in an order with no exchange left."""
    block, at = list(block), 0
    while at + 1 < len(block):
        queued = rows + sum((words[0] == "st_G") - (words[0] == "st_B") for words in block[:at])
        if permitted(block[at], block[at + 1], queued):
            block[at : at + 2] = block[at + 1], block[at]
            at = max(at - 1, 0)
        else:
            at += 1
    return block


def main():
    rows, block, number, out = [], [], None, []
    with open(sys.argv[1], encoding="ascii") as file:
        lines = [line.split() for line in file if line.split() and not line.startswith("#")]
    for words in lines:
        if words[0] == "type":
            rows.append(0)
        elif words[0] == "pend":
            rows[-1] += 1
        if words[0] in ("block", "entry"):
            out += scheduled(block, 0 if number is None else rows[number])
            block, number = [], int(words[1]) if words[0] == "block" else None
            out.append(words)
        elif number is None:
            out.append(words)
        else:
            block.append(words)
    print("\n".join(" ".join(words) for words in out))


main()
