#!/usr/bin/env python3
"""Turns a compiled object into one that is not accepted: its blue stores read the registers of the green ones.

    python3 tests/unpaired.py OBJECT >OTHER
"""
import sys


def number(data, at):
    return int.from_bytes(data[at:at + 4], "big")


def main(path):
    with open(path, "rb") as file:
        data = bytearray(file.read())
    cells, nodes, types, regs, queues, blocks, instrs = (number(data, 8 + 4 * at) for at in range(7))
    start = 48 + 16 * (cells + nodes + types) + 12 * regs + 8 * (queues + blocks)
    for at in range(start, start + 16 * instrs, 16):
        kind, address, value, colour = data[at:at + 4]
        if kind == 4 and colour == 1:
            # The number of a pair's blue register is 32 above that of the green one.
            data[at + 1:at + 3] = bytes([address - 32, value - 32])
    sys.stdout.buffer.write(data)


if __name__ == "__main__":
    main(sys.argv[1])
