"""Writes objects in both versions of the format, each section as the bytes of its records. It checks no rules."""
import struct

GREEN, BLUE = 0, 1
ADD, SUB, MUL, LTU, EQ, AND, OR, XOR, SHL, SHR = range(10)
INT, REF_INT = b"\0\0\0\0", b"\1\0\0\0"
OUT = 1048576


def code(number):
    """The basic type of the addresses of blocks with a code type."""
    return struct.pack(">BBH", 0, 1, number)


def cell(name_end, word=0, basic=INT):
    return struct.pack(">I4sQ", name_end, basic, word)


def word(value, scope=0):
    return struct.pack(">BBBBIQ", 0, 0, scope, 0, 0, value)


def words_from(first, count):
    """Nodes of the words from `first` on."""
    return b"".join(word(value) for value in range(first, first + count))


def variable(number, scope):
    return struct.pack(">BBBBIII", 1, 0, scope, 0, number, 0, 0)


def operation(op, a, b, scope):
    return struct.pack(">BBBBIII", 2, op, scope, 0, a, b, 0)


def sel(memory, address, scope):
    return struct.pack(">BBBBIII", 3, 0, scope, 0, memory, address, 0)


def memory(scope=0):
    return struct.pack(">BBBBIII", 4, 0, scope, 0, 0, 0, 0)


def upd(memory, address, value, scope):
    return struct.pack(">BBBBIII", 5, 0, scope, 0, memory, address, value)


def remainder(a, length, scope):
    return struct.pack(">BBBBIII", 6, 0, scope, 0, a, length, 0)


def code_type(regs_end=0, queue_end=0, memory=0, ints=0):
    return struct.pack(">IIIB3x", regs_end, queue_end, memory, ints)


def register_row(register, colour, node, basic=INT):
    return struct.pack(">BBxx4sI", register, colour, basic, node)


def pair(a, b):
    return struct.pack(">II", a, b)


def rows(numbers):
    return struct.pack(">%dI" % len(numbers), *numbers)


def op_reg(op, rd, rs, rt):
    return struct.pack(">BBBBIQ", 0, rd, rs, rt, op, 0)


def op_word(op, rd, rs, colour, value):
    return struct.pack(">BBBBIQ", 1, rd, rs, colour, op, value)


def mov(rd, colour, value, basic=INT):
    return struct.pack(">BBBB4sQ", 2, rd, 0, colour, basic, value)


def load(colour, rd, rs):
    return struct.pack(">BBBBIQ", 3, rd, rs, colour, 0, 0)


def store(colour, rd, rs):
    return struct.pack(">BBBBIQ", 4, rd, rs, colour, 0, 0)


def jump(colour, rd, first=0, past=0, memory=0):
    return struct.pack(">BBBBIII", 5, rd, 0, colour, first, past, memory)


def branch(colour, rz, rd, first=0, past=0, memory=0):
    return struct.pack(">BBBBIII", 6, rz, rd, colour, first, past, memory)


def idx(rd, rs, first, length):
    return struct.pack(">BBBBIQ", 8, rd, rs, 0, first, length)


HALT = struct.pack(">BBBBIQ", 7, 0, 0, 0, 0, 0)


def spell(nodes, instrs, types=None, blocks=None, cells=None, names=b"out", regs=b"", queues=b"", substs=b"",
          version=1):
    """The object with these sections, by default with one cell, one type and one block."""
    types = code_type() if types is None else types
    blocks = pair(0, 0) if blocks is None else blocks
    cells = cell(len(names)) if cells is None else cells
    widths = [(cells, 16), (nodes, 16), (types, 16), (regs, 12), (queues, 8), (blocks, 8), (instrs, 16), (substs, 4), (names, 1)]
    header = b"TALFT\0\0" + bytes([version]) + b"".join(struct.pack(">I", len(part) // width) for part, width in widths) + b"\0\0\0\0"
    return header + b"".join(part for part, _ in widths)
