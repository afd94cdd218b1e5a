#!/usr/bin/env python3
"""Prints the output that a program in examples/ must have, computed in plain Python over lists: `examples.py NAME`."""
import sys
import zlib

LINES = []


class Cells(list):
    """An array that records each word stored in it, and takes indices modulo its length."""

    def __init__(self, name, length, word=0):
        super().__init__([word] * length)
        self.name = name

    def __getitem__(self, at):
        return super().__getitem__(at % len(self))

    def __setitem__(self, at, word):
        super().__setitem__(at % len(self), word)
        LINES.append(f"{self.name}[{at % len(self)}] {word}")


def put(name, word):
    LINES.append(f"{name} {word}")


def sieve():
    composite = Cells("composite", 30)
    for i in range(2, 30):
        if all(i % d for d in range(2, i)):
            put("prime", i)
            for j in range(i * i, 30, i):
                composite[j] = 1


def sort():
    word = Cells("word", 6)
    for i, x in enumerate([31, 41, 5, 92, 6, 53]):
        word[i] = x
    for i in range(1, 6):
        x, j = word[i], i
        while j > 0 and x < word[j - 1]:
            word[j] = word[j - 1]
            j -= 1
        word[j] = x
    for x in sorted([31, 41, 5, 92, 6, 53]):
        put("sorted", x)


def crc32():
    table = Cells("table", 16)
    for i in range(16):
        c = i
        for _ in range(4):
            c = c >> 1 ^ (0xEDB88320 if c & 1 else 0)
        table[i] = c
    put("crc", zlib.crc32(b"123456789"))


def ring():
    cells, waiting, number = Cells("ring", 4), [], 0
    for _ in range(3):
        for _ in range(2):
            cells[number] = number ** 2
            waiting.append(number ** 2)
            number += 1
        put("out", waiting.pop(0))
    for square in waiting:
        put("out", square)


def filtered():
    tap, past = Cells("tap", 4, 96), Cells("past", 4)
    tap[0] = 32
    tap[3] = 32
    steps = [0, 0, 0] + [1000] * 5 + [0] * 4
    for n, x in enumerate(steps):
        past[n] = 256 * x
        window = [0, 0, 0] + steps
        put("out", (window[n + 3] + 3 * window[n + 2] + 3 * window[n + 1] + window[n]) // 8)


def life():
    row = Cells("row", 8)
    living = {(0, 1), (1, 2), (2, 0), (2, 1), (2, 2)}
    around = [(a, b) for a in (-1, 0, 1) for b in (-1, 0, 1) if a or b]

    def word(i):
        return sum(1 << j for j in range(8) if (i, j) in living)

    for i in range(3):
        row[i] = word(i)
    for _ in range(4):
        count = {(i, j): sum(((i + a) % 8, (j + b) % 8) in living for a, b in around) for i in range(8) for j in range(8)}
        living = {at for at in count if count[at] == 3 or count[at] == 2 and at in living}
        for i in range(8):
            row[i] = word(i)


{"sieve": sieve, "sort": sort, "crc32": crc32, "ring": ring, "filter": filtered, "life": life}[sys.argv[1]]()
print("\n".join(LINES))
