#!/usr/bin/env python3
"""Makes random C programs, and compiles them with tools/cc: `programs.py FIRST COUNT`.

Each is also compiled by gcc, and run. It must write the same lines of `out` and `other` as the object's run. The levels
of optimization take turns. The same number gives the same program."""
import os
import random
import subprocess
import sys

from tries import compiled, here, lines_of, try_each

TYPES = "uint8_t", "int8_t", "uint16_t", "int16_t", "uint32_t", "int32_t", "uint64_t", "int64_t"
NAMES = "out", "other"


class Program:
    """A random program. Under -fwrapv, its arithmetic has no undefined behaviour."""

    def __init__(self, seed):
        self.random = random.Random(seed)
        self.pick = self.random.choice
        self.names, self.functions, self.arrays, self.loops, self.inner = [], [], [], 0, True

    def number(self):
        return self.pick((str(self.random.randrange(20)), f"{self.random.getrandbits(32)}u",
                          f"{self.random.getrandbits(64)}ull", "0x80000000u", "-1", "0xffffu"))

    def place(self, depth):
        roll = self.random.random()
        if roll < 0.5:
            return self.pick(self.names)
        if roll < 0.8:
            name, length = self.pick(self.arrays)
            return f"{name}[(uint32_t)({self.value(depth - 1)}) % {length}u]"
        return self.pick(("record.a", "record.b", "record.c", "record.d", "packed[1].b",
                          f"packed[({self.pick(self.names)}) & 3].d"))

    def value(self, depth):
        if depth <= 0 or self.random.random() < 0.15:
            return self.pick(self.names) if self.random.random() < 0.7 else self.number()
        make = self.pick((self.cast, self.sum, self.sum, self.sum, self.shift, self.compare, self.divide, self.choose,
                          self.logic, self.call, self.builtin))
        return make(depth - 1)

    def cast(self, depth):
        return f"({self.pick(TYPES)})({self.place(depth)})"

    def sum(self, depth):
        kind = self.pick(("uint32_t", "uint64_t", "int64_t"))
        return f"(({kind})({self.value(depth)}) {self.pick('+-*^&|')} ({kind})({self.value(depth)}))"

    def shift(self, depth):
        kind, most = self.pick((("uint32_t", 31), ("uint64_t", 63), ("int64_t", 63), ("int32_t", 31)))
        return f"(({kind})({self.value(depth)}) {self.pick(('<<', '>>'))} (({self.value(depth)}) & {most}))"

    def compare(self, depth):
        kind = self.pick(TYPES)
        test = self.pick(("<", ">", "<=", ">=", "==", "!="))
        return f"(({kind})({self.value(depth)}) {test} ({kind})({self.value(depth)}))"

    def divide(self, depth):
        sign = self.pick("/%")
        if self.random.random() < 0.5:
            kind = self.pick(("uint32_t", "uint64_t"))
            return f"(({kind})({self.value(depth)}) {sign} (({kind})({self.value(depth)}) | 1))"
        part = self.pick(("3", "10", "-7", "1000", f"(({self.value(depth)}) & 63) + 1"))
        return f"((int64_t)({self.value(depth)}) {sign} ((int64_t){part}))"

    def choose(self, depth):
        return f"(({self.value(depth)}) ? ({self.value(depth)}) : ({self.value(depth)}))"

    def logic(self, depth):
        return f"(({self.value(depth)}) {self.pick(('&&', '||'))} ({self.value(depth)}))"

    def call(self, depth):
        if not self.functions:
            return self.value(depth)
        return f"{self.pick(self.functions)}({self.value(depth)}, {self.value(depth)})"

    def builtin(self, depth):
        name = self.pick(("popcountll", "popcount", "bswap32", "bswap64"))
        return f"(uint64_t)__builtin_{name}({self.value(depth)})"

    def block(self, depth):
        return "{ " + " ".join(self.statement(depth) for _ in range(self.random.randrange(1, 4))) + " }"

    def statement(self, depth):
        roll = self.random.random()
        if roll < 0.15 and not self.inner:
            return f"PUT({self.pick(('out', 'other'))}, {self.value(3)});"
        if depth <= 0 or roll < 0.5:
            return f"{self.place(2)} {self.pick(('=', '=', '+=', '^='))} {self.value(3)};"
        if roll < 0.65:
            other = f" else {self.block(depth - 1)}" if self.random.random() < 0.5 else ""
            return f"if ({self.value(2)}) {self.block(depth - 1)}{other}"
        if roll < 0.8 and self.loops < 3:
            return self.loop(depth)
        if roll < 0.9:
            cases = " ".join(f"case {n}: {self.statement(depth - 1)} {self.pick(('break;', 'break;', ''))}"
                             for n in range(self.random.randrange(2, 8)))
            return f"switch (({self.value(1)}) & 7) {{ {cases} default: break; }}"
        return f"{self.place(2)} = {self.value(3)};"

    def loop(self, depth):
        self.loops += 1
        name, turns = f"i{self.loops}", self.random.randrange(1, 7)
        leave = self.pick(("", "", f"if ({self.value(1)}) break;", f"if (({self.value(1)}) & 1) continue;"))
        body = self.block(depth - 1)
        self.loops -= 1
        return f"for (uint32_t {name} = 0; {name} < {turns}; {name}++) {{ {leave} {body} }}"

    def text(self):
        lines = ['#include "cells.h"', "CELL(out);", "CELL(other);",
                 "static struct { uint8_t a; uint16_t b; uint32_t c; uint64_t d; } record;",
                 "static struct __attribute__((packed)) { uint8_t a; uint16_t b; uint64_t d; } packed[4];"]
        for i in range(self.random.randrange(1, 4)):
            length = self.random.randrange(2, 9)
            self.arrays.append((f"array{i}", length))
            words = ", ".join(str(self.random.randrange(100)) for _ in range(length))
            kept = self.pick(("static", "static volatile"))
            lines.append(f"{kept} {self.pick(TYPES)} array{i}[{length}] = {{{words}}};")
        for i in range(self.random.randrange(3)):
            self.names = ["x", "y"]
            kinds = [self.pick(TYPES) for _ in range(3)]
            attribute = self.pick(("", "__attribute__((noinline)) "))
            lines.append(f"{attribute}static {kinds[0]} f{i}({kinds[1]} x, {kinds[2]} y) {{ {self.statement(2)} "
                         f"{self.statement(1)} return {self.value(2)}; }}")
            self.functions.append(f"f{i}")
        self.names, self.inner = [f"v{i}" for i in range(self.pick((2, 4, 8, 20)))], False
        lines.append("ENTRY {")
        lines += [f"  {self.pick(TYPES)} {name} = array0[{i % self.arrays[0][1]}] * {i + 1};"
                  for i, name in enumerate(self.names)]
        lines += [f"  {self.statement(3)}" for _ in range(self.pick((4, 8, 16)))]
        lines += [f"  PUT(out, {name});" for name in self.names]
        return "\n".join(lines + ["#ifndef __wasm__", "  return 0;", "#endif", "}", ""])


def tried(seed, level, folder):
    """The outcome in a word, and what is wrong with it."""
    source, made, native = (os.path.join(folder, name) for name in ("program.c", "program.obj", "native"))
    with open(source, "w", encoding="ascii") as out:
        out.write(Program(seed).text())
    quiet = ["-w", "-fwrapv", "-I" + os.path.join(here, "..", "..", "examples", "c")]
    subprocess.run(["gcc", "-O1", *quiet, "-o", native, source], check=True)
    wanted = subprocess.run([native], stdout=subprocess.PIPE, text=True, check=True).stdout.splitlines()
    failed = compiled(source, level, made, *quiet)
    if failed:
        return failed
    same = lines_of(made, NAMES) == [line for line in wanted if line.split(" ")[0] in NAMES]
    return ("same", None) if same else ("wrong", "its lines are not those of gcc")


def main(first, count):
    try_each(tried, range(int(first), int(first) + int(count)))


if __name__ == "__main__":
    main(*sys.argv[1:])
