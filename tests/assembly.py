#!/usr/bin/env python3
"""An assembler and a disassembler of objects that obey the rules, written only from the tables of the format and of
the forms. `python3 tests/assembly.py asm TXT` writes the object of a text, and `dis OBJ` the text of an object.
tests/cli/assembly.sh compares the program's output with theirs."""

import struct
import sys

OPS = "add sub mul ltu eq and or xor shl shr".split()
COLOURS = "GB"
MAGIC = b"TALFT\0\0"


def words_of(text):
    """Returns the words of the lines that are neither empty nor comments."""
    for line in text.split(b"\n"):
        words = [it for it in line.replace(b"\t", b" ").split(b" ") if it]
        if words and not words[0].startswith(b"#"):
            yield words[0].decode(), [it.decode("latin-1") for it in words[1:]]


def reg(word):
    return int(word[1:])


def basic(word):
    refs = word.count("ref:")
    base = word[4 * refs :]
    return struct.pack(">BBH", refs, base != "int", 0 if base == "int" else int(base[5:]))


def node(scope, kind, *parts):
    nums = [int(it) for it in parts]
    at = {"word": 0, "var": 1, "sel": 3, "memory": 4, "upd": 5, "rem": 6}
    op = OPS.index(kind) if kind in OPS else 0
    head = struct.pack(">BBBx", at.get(kind, 2), op, int(scope))
    if kind == "word":
        return head + struct.pack(">IQ", 0, nums[0])
    return head + struct.pack(">III", *(nums + [0, 0, 0])[:3])


def code(kind, a=0, b=0, c=0, x=bytes(4), v=bytes(8)):
    return struct.pack(">BBBB", kind, a, b, c) + x + v


def of_transfer(name, words, substs):
    """Returns a jump or a branch, and adds the rows of its substitution."""
    at = 5 if name.startswith("jmp") else 6
    count = at - 4
    regs = [reg(it) for it in words[:count]] + [0]
    if name.endswith("G"):
        return code(at, regs[0], regs[1], 0)
    first = len(substs)
    substs.extend(int(it) for it in words[count + 1 :])
    return code(at, regs[0], regs[1], 1, struct.pack(">I", first), struct.pack(">II", len(substs), int(words[count])))


def instr(name, words, substs):
    if name in OPS:
        op = struct.pack(">I", OPS.index(name))
        rd, rs = reg(words[0]), reg(words[1])
        if len(words) == 3:
            return code(0, rd, rs, reg(words[2]), op)
        return code(1, rd, rs, COLOURS.index(words[2]), op, struct.pack(">Q", int(words[3])))
    if name == "mov":
        return code(2, reg(words[0]), 0, COLOURS.index(words[1]), basic(words[3]), struct.pack(">Q", int(words[2])))
    if name == "idx":
        return code(8, reg(words[0]), reg(words[1]), 0, struct.pack(">I", int(words[2])), struct.pack(">Q", int(words[3])))
    if name[:2] in ("ld", "st"):
        return code(3 if name[0] == "l" else 4, reg(words[0]), reg(words[1]), COLOURS.index(name[3]))
    return code(7) if name == "halt" else of_transfer(name, words, substs)


def assemble(text):
    """Returns the bytes of the object that a text means."""
    sections = {it: [] for it in "cells nodes types regs queue blocks instrs".split()}
    names, substs, entry = b"", [], 0
    for name, words in words_of(text):
        if name == "cell":
            names += words[0].encode("latin-1")
            sections["cells"].append(struct.pack(">I", len(names)) + basic(words[1]) + struct.pack(">Q", int(words[2])))
        elif name == "node":
            sections["nodes"].append(node(*words))
        elif name == "type":
            sections["types"].append([int(words[0]), int(words[1]), 0, 0])
        elif name == "reg":
            sections["regs"].append(struct.pack(">BBxx", reg(words[0]), COLOURS.index(words[1])) + basic(words[2]) + struct.pack(">I", int(words[3])))
        elif name == "pend":
            sections["queue"].append(struct.pack(">II", int(words[0]), int(words[1])))
        elif name == "block":
            sections["blocks"].append(struct.pack(">II", len(sections["instrs"]), int(words[0])))
        elif name == "entry":
            entry = int(words[0])
        else:
            sections["instrs"].append(instr(name, words, substs))
        if sections["types"]:
            sections["types"][-1][2:] = [len(sections["regs"]), len(sections["queue"])]
    sections["types"] = [struct.pack(">IIIBxxx", regs, queue, memory, ints) for ints, memory, regs, queue in sections["types"]]
    counts = [len(it) for it in sections.values()] + [len(substs), len(names), entry]
    rows = b"".join(struct.pack(">I", it) for it in substs)
    return MAGIC + b"\2" + struct.pack(">10I", *counts) + b"".join(b"".join(it) for it in sections.values()) + rows + names


def basic_word(bytes4):
    refs, base, number = struct.unpack(">BBH", bytes4)
    return "ref:" * refs + (f"code:{number}" if base else "int")


def node_line(r):
    kind, op, scope = r[0], r[1], r[2]
    a, b, c = struct.unpack(">III", r[4:])
    said = [
        lambda: f"word {b << 32 | c}",
        lambda: f"var {a}",
        lambda: f"{OPS[op]} {a} {b}",
        lambda: f"sel {a} {b}",
        lambda: "memory",
        lambda: f"upd {a} {b} {c}",
        lambda: f"rem {a} {b}",
    ][kind]()
    return f"node {scope} {said}"


def instr_line(r, substs):
    kind, a, b, c = r[:4]
    (x,), (v,), (past, memory) = struct.unpack(">I", r[4:8]), struct.unpack(">Q", r[8:]), struct.unpack(">II", r[8:])
    colour = COLOURS[c & 1]
    rows = "".join(f" {it}" for it in substs[x:past])
    rest = f" {memory}{rows}" if c else ""
    return [
        lambda: f"{OPS[x]} r{a} r{b} r{c}",
        lambda: f"{OPS[x]} r{a} r{b} {colour} {v}",
        lambda: f"mov r{a} {colour} {v} {basic_word(r[4:8])}",
        lambda: f"ld_{colour} r{a} r{b}",
        lambda: f"st_{colour} r{a} r{b}",
        lambda: f"jmp_{colour} r{a}{rest}",
        lambda: f"bz_{colour} r{a} r{b}{rest}",
        lambda: "halt",
        lambda: f"idx r{a} r{b} {x} {v}",
    ][kind]()


def type_lines(types, regs, queue):
    reg_at = queue_at = 0
    for r in types:
        reg_end, queue_end, memory, ints = struct.unpack(">IIIBxxx", r)
        yield f"type {ints} {memory}"
        for row in regs[reg_at:reg_end]:
            yield f"reg r{row[0]} {COLOURS[row[1]]} {basic_word(row[4:8])} {struct.unpack('>I', row[8:])[0]}"
        for row in queue[queue_at:queue_end]:
            yield "pend %d %d" % struct.unpack(">II", row)
        reg_at, queue_at = reg_end, queue_end


def disassemble(data):
    """Returns the lines of an object that obeys the rules."""
    counts = struct.unpack(">10I", data[8:48])
    sections, at = [], 48
    for count, size in zip(counts, (16, 16, 16, 12, 8, 8, 16, 4, 1)):
        sections.append([data[at + k * size : at + k * size + size] for k in range(count)])
        at += count * size
    cells, nodes, types, regs, queue, blocks, instrs, substs, names = sections
    substs = [struct.unpack(">I", it)[0] for it in substs]
    start = 0
    for r in cells:
        end, init = struct.unpack(">I", r[:4])[0], struct.unpack(">Q", r[8:])[0]
        yield f"cell {b''.join(names[start:end]).decode()} {basic_word(r[4:8])} {init}"
        start = end
    yield from map(node_line, nodes)
    yield from type_lines(types, regs, queue)
    begins = {struct.unpack(">I", r[:4])[0]: struct.unpack(">I", r[4:])[0] for r in blocks}
    for i, r in enumerate(instrs):
        if i in begins:
            yield f"block {begins[i]}"
        yield instr_line(r, substs)
    yield f"entry {counts[9]}"


if __name__ == "__main__":
    with open(sys.argv[2], "rb") as file:
        given = file.read()
    if sys.argv[1] == "asm":
        sys.stdout.buffer.write(assemble(given))
    else:
        sys.stdout.write("".join(f"{it}\n" for it in disassemble(given)))
