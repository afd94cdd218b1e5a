"""Runs a WebAssembly module as the standard says, and records each store, for comparison with translations."""
from wasm.decoder import PAGE, Invalid
from wasm.numbers import conversions, of_form
from wasm.traps import BY_ZERO, INDIRECT, OUTSIDE, OVERFLOW, UNREACHABLE

M32, M64 = (1 << 32) - 1, (1 << 64) - 1


class Trap(Exception):
    """The program has trapped: what happened."""


class Cut(Exception):
    """The program has run as many instructions as allowed."""


def signed(word, bits):
    return word - (1 << bits) if word >> (bits - 1) else word


def extended(word, low, bits):
    """The low bits of a word, sign-extended to this many bits."""
    return signed(word & ((1 << low) - 1), low) & ((1 << bits) - 1)


def quotient(a, b, bits):
    a, b = signed(a, bits), signed(b, bits)
    if b == 0:
        raise Trap(BY_ZERO)
    result = abs(a) // abs(b)
    return -result if (a < 0) != (b < 0) else result


def div_s(a, b, bits):
    result = quotient(a, b, bits)
    if result >> (bits - 1) == 1:
        raise Trap(OVERFLOW)
    return result & ((1 << bits) - 1)


def rem_s(a, b, bits):
    return (signed(a, bits) - quotient(a, b, bits) * signed(b, bits)) & ((1 << bits) - 1)


def div_u(a, b, bits):
    if b == 0:
        raise Trap(BY_ZERO)
    return a // b


def rem_u(a, b, bits):
    if b == 0:
        raise Trap(BY_ZERO)
    return a % b


def rotl(a, b, bits):
    b %= bits
    return (a << b | a >> (bits - b)) & ((1 << bits) - 1)


def of_one_word(bits, first_test, first_count):
    """The instructions on one word of this many bits, from the opcodes of `eqz` and `clz`."""
    return {first_test: lambda a: int(a == 0),
            first_count: lambda a: bits - a.bit_length(),
            first_count + 1: lambda a: (a & -a).bit_length() - 1 if a else bits,
            first_count + 2: lambda a: bin(a).count("1")}


def of_two_words(bits, first_test, first_sum):
    """The instructions that take two words, from the opcodes of `eq` and `add`."""
    full = (1 << bits) - 1
    tests = [lambda a, b: int(a == b), lambda a, b: int(a != b),
             lambda a, b: int(signed(a, bits) < signed(b, bits)), lambda a, b: int(a < b),
             lambda a, b: int(signed(a, bits) > signed(b, bits)), lambda a, b: int(a > b),
             lambda a, b: int(signed(a, bits) <= signed(b, bits)), lambda a, b: int(a <= b),
             lambda a, b: int(signed(a, bits) >= signed(b, bits)), lambda a, b: int(a >= b)]
    sums = [lambda a, b: (a + b) & full, lambda a, b: (a - b) & full, lambda a, b: (a * b) & full,
            lambda a, b: div_s(a, b, bits), lambda a, b: div_u(a, b, bits),
            lambda a, b: rem_s(a, b, bits), lambda a, b: rem_u(a, b, bits),
            lambda a, b: a & b, lambda a, b: a | b, lambda a, b: a ^ b,
            lambda a, b: (a << b % bits) & full, lambda a, b: (signed(a, bits) >> b % bits) & full,
            lambda a, b: a >> b % bits, lambda a, b: rotl(a, b, bits), lambda a, b: rotl(a, -b, bits)]
    return {**{first_test + n: test for n, test in enumerate(tests)},
            **{first_sum + n: operation for n, operation in enumerate(sums)}}


ONE = {**of_one_word(32, 0x45, 0x67), **of_one_word(64, 0x50, 0x79),
       0xA7: lambda a: a & M32, 0xAC: lambda a: extended(a, 32, 64), 0xAD: lambda a: a,
       0xC0: lambda a: extended(a, 8, 32), 0xC1: lambda a: extended(a, 16, 32),
       0xC2: lambda a: extended(a, 8, 64), 0xC3: lambda a: extended(a, 16, 64),
       0xC4: lambda a: extended(a, 32, 64)}
TWO = {**of_two_words(32, 0x46, 0x6A), **of_two_words(64, 0x51, 0x7C)}
for bits, *codes in ((32, 0x5B, 0x8B, 0x92), (64, 0x61, 0x99, 0xA0)):
    for known, more in zip((ONE, TWO), of_form(bits, *codes)):
        known.update(more)
ONE.update(conversions(Trap))
# Of a load: how many bytes, and how many bits it is extended to with its sign, or 0. Of a store: how many bytes.
LOADS = {0x28: (4, 0), 0x29: (8, 0), 0x2A: (4, 0), 0x2B: (8, 0), 0x2C: (1, 32), 0x2D: (1, 0), 0x2E: (2, 32),
         0x2F: (2, 0), 0x30: (1, 64), 0x31: (1, 0), 0x32: (2, 64), 0x33: (2, 0), 0x34: (4, 64), 0x35: (4, 0)}
STORES = {0x36: 4, 0x37: 8, 0x38: 4, 0x39: 8, 0x3A: 1, 0x3B: 2, 0x3C: 1, 0x3D: 2, 0x3E: 4}


class Interpreter:
    """A module that runs. `stores` has the address and the new value of each word of 8 bytes that a store wrote to."""

    def __init__(self, module, most=100_000_000, most_stores=None):
        self.module, self.left, self.most, self.most_stores = module, most, most, most_stores
        self.memory, self.stores, self.place = bytearray(module.pages * PAGE), [], None
        self.globals, self.dropped, self.depth = list(module.globals), set(), 0
        for number, segment in enumerate(module.data):
            if segment.active:
                self.fill(segment.at, segment.items)
                self.dropped.add(number)

    @property
    def count(self):
        """How many instructions have run; those that only bracket others are not counted."""
        return self.most - self.left

    def fill(self, at, data):
        if at + len(data) > len(self.memory):
            raise Trap(OUTSIDE)
        self.memory[at:at + len(data)] = data

    def note(self, at, size):
        """Notes the words in which bytes have been stored."""
        for word in range(at & ~7, at + size, 8):
            self.stores.append((word, int.from_bytes(self.memory[word:word + 8], "little")))
        if self.most_stores is not None and len(self.stores) >= self.most_stores:
            raise Cut

    def run(self, entry):
        """Runs the start function and the entry: how it ended, what happened, and the results."""
        kind, index = self.module.exports.get(entry, (None, None))
        if kind != 0:
            raise Invalid(f"exports no function `{entry}`")
        try:
            if self.module.start is not None:
                self.call(self.module.functions[self.module.start], [])
            return "done", "", self.call(self.module.functions[index], [])
        except Trap as trap:
            return "trapped", str(trap), []
        except RecursionError:
            return "trapped", "calls nest too deeply", []
        except Cut:
            return "cut", "", []

    def load(self, at, size, bits):
        if at + size > len(self.memory):
            raise Trap(OUTSIDE)
        word = int.from_bytes(self.memory[at:at + size], "little")
        return extended(word, 8 * size, bits) if bits else word

    def store(self, at, word, size):
        self.fill(at, (word & ((1 << 8 * size) - 1)).to_bytes(size, "little"))
        self.note(at, size)

    def indirect(self, kind, table, number):
        index = self.module.tables[table].get(number)
        if index is None:
            raise Trap(INDIRECT)
        function = self.module.functions[index]
        if (function.params, function.results) != self.module.types[kind]:
            raise Trap(INDIRECT)
        return function

    def bulk(self, op, a, stack):
        """The instructions of bulk memory."""
        if op == 0xFC09:
            self.dropped.add(a)
            return
        count, second, to = stack.pop(), stack.pop(), stack.pop()
        if op == 0xFC0B:
            data = bytes([second & 255]) * min(count, len(self.memory) + 1)
        elif op == 0xFC0A:
            data = self.part(self.memory, second, count)
        else:
            data = self.part(b"" if a in self.dropped else self.module.data[a].items, second, count)
        if to + count > len(self.memory):
            raise Trap(OUTSIDE)
        # Like an object: byte by byte, each byte a store, and downwards if the copy moves bytes up.
        downwards = op == 0xFC0A and to > second
        for at in range(count - 1, -1, -1) if downwards else range(count):
            self.memory[to + at] = data[at]
            self.note(to + at, 1)

    @staticmethod
    def part(data, at, count):
        if at + count > len(data):
            raise Trap(OUTSIDE)
        return bytes(data[at:at + count])

    def call(self, function, arguments):
        """Runs a function with stacks of words and of labels: where a branch to each label leads, and what it keeps."""
        code, stack, pc = function.code, [], 0
        words = arguments + [0] * function.zeros
        labels = [(len(code), len(function.results), 0)]
        while pc < len(code):
            op, a, b, _ = ins = code[pc]
            pc += 1
            if not 0x02 <= op <= 0x05 and op != 0x0B:
                self.left -= 1
                if self.left < 0:
                    raise Cut
            if op == 0x20:
                stack.append(words[a])
            elif 0x41 <= op <= 0x44:
                stack.append(a)
            elif op in TWO:
                self.place = function, ins
                second = stack.pop()
                stack[-1] = TWO[op](stack[-1], second)
            elif op == 0x21:
                words[a] = stack.pop()
            elif op == 0x22:
                words[a] = stack[-1]
            elif op in LOADS:
                self.place = function, ins
                stack[-1] = self.load(stack[-1] + a, *LOADS[op])
            elif op in STORES:
                self.place = function, ins
                word = stack.pop()
                self.store(stack.pop() + a, word, STORES[op])
            elif op in ONE:
                self.place = function, ins
                stack[-1] = ONE[op](stack[-1])
            elif 0x02 <= op <= 0x05 or 0x0B <= op <= 0x0F:
                pc = self.control(ins, pc, stack, labels)
            else:
                self.place = function, ins
                self.other(ins, stack)
        return stack[len(stack) - len(function.results):] if function.results else []

    @staticmethod
    def branch(depth, stack, labels):
        target, arity, height = labels[-1 - depth]
        del labels[len(labels) - 1 - depth:]
        del stack[height:len(stack) - arity]
        return target

    def control(self, ins, pc, stack, labels):
        """The place where execution continues after a block, a branch or an end."""
        op, a, b, _ = ins
        if op == 0x0D:
            return self.branch(a, stack, labels) if stack.pop() else pc
        if op == 0x0B:
            labels.pop()
            return pc
        if op == 0x05:
            return a[2]
        if op in (0x02, 0x03, 0x04):
            condition = stack.pop() if op == 0x04 else 1
            height = len(stack) - a[0]
            labels.append((pc - 1, a[0], height) if op == 0x03 else (a[2] + 1, a[1], height))
            return pc if condition else a[3]
        if op == 0x0C:
            return self.branch(a, stack, labels)
        if op == 0x0E:
            number = stack.pop()
            return self.branch(a[number] if number < len(a) else b, stack, labels)
        return self.branch(len(labels) - 1, stack, labels)

    def other(self, ins, stack):
        """Calls, globals, selection, and the size of the memory."""
        op, a, b, at = ins
        if op in (0x10, 0x11):
            function = self.module.functions[a] if op == 0x10 else self.indirect(a, b, stack.pop())
            count = len(function.params)
            arguments = stack[len(stack) - count:]
            del stack[len(stack) - count:]
            stack += self.call(function, arguments)
        elif op in (0x1B, 0x1C):
            condition, second = stack.pop(), stack.pop()
            stack[-1] = stack[-1] if condition else second
        elif op == 0x1A:
            stack.pop()
        elif op == 0x23:
            stack.append(self.globals[a])
        elif op == 0x24:
            self.globals[a] = stack.pop()
        elif op == 0x3F:
            stack.append(self.module.pages)
        elif op == 0x40:
            stack[-1] = self.module.pages if stack[-1] == 0 else M32
        elif op in (0xFC08, 0xFC09, 0xFC0A, 0xFC0B):
            self.bulk(op, a, stack)
        elif op == 0x00:
            raise Trap(UNREACHABLE)
        elif op != 0x01:
            raise Invalid(f"{self.place[0].name}: offset {at:#x}: instruction {op:#x} is not supported")
