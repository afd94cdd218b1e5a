#!/usr/bin/env python3
"""Makes random WebAssembly modules: `modules.py FOLDER FIRST COUNT` writes valid ones, and damaged ones with `damaged`.

A module exports `run` and its memory, of which it uses the addresses 1024 to 1280. Every run ends: each loop has a
counter of its own, and recursion counts down. The same number gives the same module."""
import os
import random
import sys

I32, I64 = 0x7F, 0x7E
LOW, SIZE = 1024, 256
WIDTHS = {I32: 32, I64: 64}


def unsigned(number):
    out = bytearray()
    while True:
        number, low = number >> 7, number & 127
        out.append(low | (128 if number else 0))
        if not number:
            return bytes(out)


def signed(number):
    out = bytearray()
    while True:
        low = number & 127
        number >>= 7
        if number == (-1 if low & 64 else 0):
            return bytes(out + bytes([low]))
        out.append(low | 128)


def many(parts):
    return unsigned(len(parts)) + b"".join(parts)


def section(number, data):
    return bytes([number]) + unsigned(len(data)) + data


def const(kind, word):
    bits = WIDTHS[kind]
    word %= 2 ** bits
    return bytes([0x41 if kind == I32 else 0x42]) + signed(word - 2 ** bits if word >> bits - 1 else word)


class Body:
    """A function's code. A label lists the types that a branch to it takes; a loop's label is None, and is never a branch target."""

    def __init__(self, module, params, results, size, index):
        self.module, self.random, self.index = module, module.random, index
        self.kinds = params + [self.random.choice((I32, I64)) for _ in range(size % 7 + 1)]
        self.params, self.results, self.counters, self.labels = len(params), results, set(), []

    def pick(self, *choices):
        return self.random.choice(choices)

    def word(self, kind):
        bits = WIDTHS[kind]
        return const(kind, self.pick(0, 1, 2, 7, 31, 63, 255, 65535, 2 ** (bits - 1), 2 ** (bits - 1) - 1, -1, -7,
                                     self.random.getrandbits(bits), self.random.getrandbits(8)))

    def local(self, kind):
        mine = [i for i, k in enumerate(self.kinds) if k == kind and i not in self.counters]
        return unsigned(self.random.choice(mine)) if mine else None

    def leaf(self, kind):
        at = self.local(kind)
        return b"\x20" + at if at and self.random.random() < 0.7 else self.word(kind)

    def value(self, kind, depth):
        if depth <= 0:
            return self.leaf(kind)
        make = self.random.choices(
            (self.leaf, self.of_one, self.of_two, self.test, self.load, self.select, self.block, self.branches,
             self.calls, self.of_module, self.pair), (2, 3, 8, 2, 3, 2, 2, 2, 2, 1, 1))[0]
        return make(kind) if make == self.leaf else make(kind, depth - 1)

    def of_one(self, kind, depth):
        if kind == I32:
            if self.random.random() < 0.3:
                return self.value(I64, depth) + b"\xA7"
            return self.value(I32, depth) + bytes([self.pick(0x67, 0x68, 0x69, 0xC0, 0xC1)])
        if self.random.random() < 0.4:
            return self.value(I32, depth) + bytes([self.pick(0xAC, 0xAD)])
        return self.value(I64, depth) + bytes([self.pick(0x79, 0x7A, 0x7B, 0xC2, 0xC3, 0xC4)])

    def of_two(self, kind, depth):
        operation = self.random.randrange(15)
        second = self.value(kind, depth)
        if 3 <= operation <= 6 and self.random.random() < 0.95:      # rarely a trap
            second = self.word(kind) if self.random.random() < 0.3 else second
            second += const(kind, 255) + bytes([0x71 if kind == I32 else 0x83])
            second += const(kind, self.pick(1, 3, 64)) + bytes([0x72 if kind == I32 else 0x84])
        return self.value(kind, depth) + second + bytes([(0x6A if kind == I32 else 0x7C) + operation])

    def test(self, kind, depth):
        operand = self.pick(I32, I64)
        first = 0x45 if operand == I32 else 0x50
        if self.random.random() < 0.2:
            code = self.value(operand, depth) + bytes([first])
        else:
            code = self.value(operand, depth) + self.value(operand, depth)
            code += bytes([first + 1 + self.random.randrange(10)])
        return code if kind == I32 else code + b"\xAD"

    def place(self, size, depth):
        """An address that is nearly always within the memory, and the hint and offset of its access."""
        roll = self.random.random()
        if roll < 0.3:
            at = LOW + self.random.randrange(SIZE - size + 1)
            return const(I32, 0 if roll < 0.1 else at), unsigned(0) + unsigned(at if roll < 0.1 else 0)
        aligned = self.random.random() < 0.6
        mask = (SIZE - 8) & -size if aligned else SIZE - 16 + 7
        code = self.value(I32, depth) + const(I32, mask) + b"\x71"
        hint = size.bit_length() - 1 if aligned else 0
        if roll < 0.5:
            return code + const(I32, LOW) + b"\x6A", unsigned(hint) + unsigned(0)
        return code, unsigned(hint) + unsigned(LOW + (8 if not aligned and self.random.random() < 0.01 else 0))

    def load(self, kind, depth):
        op, size = self.random.choice(
            ((0x28, 4), (0x2C, 1), (0x2D, 1), (0x2E, 2), (0x2F, 2)) if kind == I32 else
            ((0x29, 8), (0x30, 1), (0x31, 1), (0x32, 2), (0x33, 2), (0x34, 4), (0x35, 4)))
        code, hint = self.place(size, depth - 1)
        return code + bytes([op]) + hint

    def select(self, kind, depth):
        typed = b"\x1C\x01" + bytes([kind]) if self.random.random() < 0.3 else b"\x1B"
        return self.value(kind, depth) + self.value(kind, depth) + self.value(I32, depth) + typed

    def block(self, kind, depth):
        self.labels.append([kind])
        code = self.statements(depth, 1)
        if self.random.random() < 0.5:
            code += self.value(kind, depth) + self.value(I32, depth) + b"\x0D\x00\x1A"
        code += self.value(kind, depth)
        self.labels.pop()
        return bytes([0x02, kind]) + code + b"\x0B"

    def branches(self, kind, depth):
        condition = self.value(I32, depth)
        self.labels.append([kind])
        parts = [self.value(kind, depth) for _ in range(2)]
        self.labels.pop()
        return condition + bytes([0x04, kind]) + parts[0] + b"\x05" + parts[1] + b"\x0B"

    def calls(self, kind, depth):
        found = [(i, p) for i, (p, r) in enumerate(self.module.kinds) if i < self.index and r == [kind]]
        if not found or self.module.calls <= 0:
            return self.leaf(kind)
        self.module.calls -= 1
        number, params = self.random.choice(found)
        arguments = b"".join(self.value(p, depth - 1) for p in params)
        if self.module.table and self.random.random() < 0.4:
            return arguments + const(I32, number) + b"\x11" + unsigned(number) + b"\x00"
        return arguments + b"\x10" + unsigned(number)

    def of_module(self, kind, depth):
        found = [i for i, k in enumerate(self.module.globals) if k == kind]
        if found:
            return b"\x23" + unsigned(self.random.choice(found))
        return b"\x3F\x00" if kind == I32 else self.leaf(kind)

    def pair(self, kind, depth):
        """A block with a parameter and two results, the second of which is dropped."""
        first = self.value(kind, depth)
        self.labels.append([kind, I32])
        second = self.value(I32, depth)
        self.labels.pop()
        return first + b"\x02" + unsigned(self.module.pairs[kind]) + second + b"\x0B\x1A"

    def statements(self, depth, most):
        return b"".join(self.statement(depth) for _ in range(self.random.randrange(most + 1)))

    def statement(self, depth):
        simple = self.assign, self.keep, self.keep, self.globally, self.bulk
        nested = self.when, self.blocks, self.loop, self.leave, self.table, self.forget
        return self.random.choice(simple + (nested if depth > 0 else ()))(depth - 1)

    def assign(self, depth):
        kind = self.pick(I32, I64)
        at = self.local(kind)
        if not at:
            return b"\x01"
        return self.value(kind, 3) + (b"\x21" + at if self.random.random() < 0.8 else b"\x22" + at + b"\x1A")

    def keep(self, depth):
        op, size, kind = self.random.choice(((0x36, 4, I32), (0x37, 8, I64), (0x3A, 1, I32), (0x3B, 2, I32),
                                             (0x3C, 1, I64), (0x3D, 2, I64), (0x3E, 4, I64)))
        code, hint = self.place(size, 2)
        return code + self.value(kind, 3) + bytes([op]) + hint

    def globally(self, depth):
        if not self.module.globals:
            return b"\x01"
        at = self.random.randrange(len(self.module.globals))
        return self.value(self.module.globals[at], 3) + b"\x24" + unsigned(at)

    def bulk(self, depth):
        if not self.module.bulk or self.random.random() < 0.7:
            return self.keep(depth)
        count = const(I32, self.random.randrange(20)) if self.random.random() < 0.5 else \
            self.value(I32, 1) + const(I32, 15) + b"\x71"
        to = self.value(I32, 1) + const(I32, 127) + b"\x71" + const(I32, LOW) + b"\x6A"
        if self.random.random() < 0.5:
            return to + self.value(I32, 1) + count + b"\xFC\x0B\x00"
        source = self.value(I32, 1) + const(I32, 127) + b"\x71" + const(I32, LOW) + b"\x6A"
        return to + source + count + b"\xFC\x0A\x00\x00"

    def when(self, depth):
        condition = self.value(I32, 2)
        self.labels.append([])
        then = self.statements(depth, 2)
        other = b"\x05" + self.statements(depth, 2) if self.random.random() < 0.5 else b""
        self.labels.pop()
        return condition + b"\x04\x40" + then + other + b"\x0B"

    def blocks(self, depth):
        self.labels.append([])
        code = b"\x02\x40" + self.statements(depth, 3) + b"\x0B"
        self.labels.pop()
        return code

    def loop(self, depth):
        self.kinds.append(I32)
        counter = len(self.kinds) - 1
        self.counters.add(counter)
        at = unsigned(counter)
        self.labels += [[], None]
        inner = self.statements(depth, 3)
        del self.labels[-2:]
        turns = const(I32, self.pick(1, 2, 3, 6))
        if self.random.random() < 0.5:
            return turns + b"\x21" + at + b"\x02\x40\x03\x40" + inner + b"\x20" + at + b"\x41\x01\x6B\x22" + at + \
                b"\x0D\x00\x0B\x0B"
        return b"\x41\x00\x21" + at + b"\x02\x40\x03\x40\x20" + at + turns + b"\x4F\x0D\x01" + inner + b"\x20" + at + \
            b"\x41\x01\x6A\x21" + at + b"\x0C\x00\x0B\x0B"

    def aims(self):
        return [depth for depth in range(len(self.labels)) if self.labels[-1 - depth] == []]

    def leave(self, depth):
        roll = self.random.random()
        if roll < 0.15:      # leaves the function
            return self.value(I32, 2) + b"\x04\x40" + b"".join(self.value(k, 2) for k in self.results) + b"\x0F\x0B"
        if not self.aims():
            return b"\x01"
        return self.value(I32, 2) + b"\x0D" + unsigned(self.random.choice(self.aims()))

    def table(self, depth):
        outer = [unsigned(at + 1) for at in self.aims()]
        targets = [self.random.choice(outer) if outer and self.random.random() < 0.5 else b"\x00"
                   for _ in range(self.random.randrange(1, 7))]
        self.labels.append([])
        code = self.statements(depth, 1) + self.value(I32, 2) + const(I32, 7) + b"\x71\x0E"
        code += many(targets[:-1]) + targets[-1]
        self.labels.pop()
        return b"\x02\x40" + code + b"\x0B"

    def forget(self, depth):
        return self.value(self.pick(I32, I64), 3) + b"\x1A"

    def code(self, size):
        start = b""
        if self.index == len(self.module.kinds) - 1:
            for at, kind in enumerate(self.kinds):
                load = b"\x28\x02" if kind == I32 else b"\x29\x03"
                start += b"\x41\x00" + load + unsigned(LOW + 8 * at) + b"\x21" + unsigned(at)
        text = start + b"".join(self.statement(3) for _ in range(size))
        text += b"".join(self.value(kind, 3) for kind in self.results)
        extra = [unsigned(1) + bytes([kind]) for kind in self.kinds[self.params:]]
        body = many(extra) + text + b"\x0B"
        return unsigned(len(body)) + body


class Module:
    """A random module, by its number."""

    def __init__(self, seed):
        self.random = random.Random(seed)
        choose = self.random.choice
        self.size, self.calls = choose((4, 8, 16, 30)), 5
        self.bulk, self.table = self.random.random() < 0.4, self.random.random() < 0.3
        self.globals = [choose((I32, I64)) for _ in range(self.random.randrange(3))]
        self.kinds = [([choose((I32, I64)) for _ in range(self.random.randrange(3))], [choose((I32, I64))])
                      for _ in range(self.random.randrange(4))]
        self.kinds.append(([], [I64] if self.random.random() < 0.3 else []))
        self.pairs = {I32: len(self.kinds), I64: len(self.kinds) + 1}

    def bytes(self):
        last = len(self.kinds) - 1
        codes = [Body(self, params, results, self.size, i).code(self.size if i == last else self.size // 5)
                 for i, (params, results) in enumerate(self.kinds)]
        types = self.kinds + [([kind], [kind, I32]) for kind in (I32, I64)]
        data = bytes(self.random.getrandbits(8) for _ in range(SIZE))
        end = bytes([I32, 0]) + const(I32, LOW + SIZE) + b"\x0B"
        table = [section(4, b"\x01\x70\x00" + unsigned(last))] if self.table and last else []
        filled = [section(9, b"\x01\x00\x41\x00\x0B" + many([unsigned(i) for i in range(last)]))] if table else []
        self.table = bool(table)
        parts = [section(1, many([b"\x60" + many([bytes([k]) for k in p]) + many([bytes([k]) for k in r])
                                  for p, r in types])),
                 section(3, many([unsigned(i) for i in range(last + 1)])), *table, section(5, b"\x01\x00\x01"),
                 section(6, many([bytes([k, 1]) + const(k, 5) + b"\x0B" for k in self.globals] + [end])),
                 section(7, many([b"\x03run\x00" + unsigned(last), b"\x06memory\x02\x00",
                                  b"\x0A__data_end\x03" + unsigned(len(self.globals))])), *filled,
                 section(10, many(codes)),
                 section(11, many([b"\x00" + const(I32, LOW) + b"\x0B" + many([bytes([b]) for b in data])]))]
        return b"\0asm\1\0\0\0" + b"".join(parts)


def damaged(data, seed):
    """The module with some bytes changed, removed or inserted."""
    draw, out = random.Random(seed), bytearray(data)
    for _ in range(draw.choice((1, 1, 2, 5))):
        at = draw.randrange(len(out)) if out else 0
        how = draw.randrange(5)
        if how == 0:
            out[at:at + 1] = bytes([draw.getrandbits(8)])
        elif how == 1:
            del out[at:at + draw.choice((1, 2, 9))]
        elif how == 2:
            out[at:at] = bytes(draw.getrandbits(8) for _ in range(draw.choice((1, 3))))
        elif how == 3:
            del out[at:]
        else:
            out[at:at + 1] = bytes([out[at] ^ 1 << draw.randrange(8)] if at < len(out) else b"")
    return bytes(out)


def main(folder, first, count, how="valid"):
    for number in range(int(first), int(first) + int(count)):
        if how == "damaged":
            data = damaged(Module(number // 10).bytes(), number)
        else:
            data = Module(number).bytes()
        with open(os.path.join(folder, f"{number}.wasm"), "wb") as out:
            out.write(data)


if __name__ == "__main__":
    main(*sys.argv[1:])
