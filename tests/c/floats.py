#!/usr/bin/env python3
"""Writes modules with one floating-point instruction each, on random numbers: `floats.py FOLDER COUNT` writes COUNT of each."""
import os
import random
import sys

from modules import I32, I64, const, many, section, unsigned

F32, F64 = 0x7D, 0x7C
# From a number to its bits, and back; the opcode of `eq`.
BITS = {F32: (0xBC, 0xBE, I32, 0x5B), F64: (0xBD, 0xBF, I64, 0x61)}


def instructions():
    """Each instruction, with the types of its operands and of its result."""
    for kind, test, one, two in ((F32, 0x5B, 0x8B, 0x92), (F64, 0x61, 0x99, 0xA0)):
        yield from ((test + n, [kind, kind], I32) for n in range(6))
        yield from ((one + n, [kind], kind) for n in range(7))
        yield from ((two + n, [kind, kind], kind) for n in range(7))
    for first, whole in ((0xA8, I32), (0xAE, I64), (0xFC00, I32), (0xFC04, I64)):
        yield from ((first + n, [kind], whole) for n, kind in enumerate((F32, F32, F64, F64)))
    for first, kind in ((0xB2, F32), (0xB7, F64)):
        yield from ((first + n, [whole], kind) for n, whole in enumerate((I32, I32, I64, I64)))
    yield 0xB6, [F64], F32
    yield 0xBB, [F32], F64


def word(draw, kind):
    """The bits of a number: an edge case, a magnitude near 1, an integer, or any bits."""
    width, exponent = {I32: (32, 0), I64: (64, 0), F32: (32, 8), F64: (64, 11)}[kind]
    if not exponent:
        return draw.getrandbits(draw.choice((8, width)))
    fraction, roll = width - 1 - exponent, draw.random()
    infinity, sign = ((1 << exponent) - 1) << fraction, draw.getrandbits(1) << width - 1
    one = (1 << exponent - 1) - 1
    if roll < 0.2:
        return sign | draw.choice((0, 1, infinity, infinity - 1, (1 << fraction) - 1))
    if roll < 0.6:
        return sign | one + draw.randrange(-70, 70) << fraction | draw.getrandbits(fraction)
    if roll < 0.7:
        return sign | one + draw.randrange(20) << fraction | draw.getrandbits(6) << fraction - 6
    return draw.getrandbits(width)


def operand(draw, kind):
    if kind in (I32, I64):
        return const(kind, word(draw, kind))
    return const(BITS[kind][2], word(draw, kind)) + bytes([BITS[kind][1]])


def module(draw, op, takes, gives):
    """A module whose `run` returns the bits of the result, or 7 for a NaN, as its bits are not determined."""
    code = b"".join(operand(draw, kind) for kind in takes)
    code += bytes([0xFC, op & 255]) if op >= 0xFC00 else bytes([op])
    kind = gives
    if gives in BITS:
        bits, _, kind, equal = BITS[gives]
        code += b"\x22\x00" + bytes([bits]) + const(kind, 7) + b"\x20\x00\x20\x00" + bytes([equal]) + b"\x1B"
    body = many([b"\x01" + bytes([gives])]) + code + b"\x0B"
    return (b"\0asm\1\0\0\0" + section(1, many([b"\x60\x00\x01" + bytes([kind])])) + section(3, b"\x01\x00") +
            section(5, b"\x01\x00\x01") + section(7, many([b"\x03run\x00\x00", b"\x06memory\x02\x00"])) +
            section(10, many([unsigned(len(body)) + body])))


def main(folder, count):
    for op, takes, gives in instructions():
        draw = random.Random(op)
        for number in range(int(count)):
            with open(os.path.join(folder, f"{op:x}_{number}.wasm"), "wb") as out:
                out.write(module(draw, op, takes, gives))


if __name__ == "__main__":
    main(*sys.argv[1:])
