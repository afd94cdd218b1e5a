"""Pass 2a: what each arithmetic instruction of WebAssembly is in 64-bit words. 32-bit values are kept zero-extended."""
from .divide import Divide
from .ir import Edge
from .traps import BY_ZERO, OVERFLOW
from .words import M32, M64, ones_of


class Arith(Divide):
    """Mixed into the builder: uses mk, block, self.g.at and self.trap_edge."""

    def low(self, value, bits):
        return value if bits == 64 else self.mk("and", value, M32)

    def negate(self, bit):
        return self.mk("eq", bit, 0)

    def signed(self, value, bits):
        """Signed order is unsigned order once the sign bits are flipped."""
        return self.mk("xor", value, 1 << (bits - 1))

    def extended(self, value, source, bits):
        """Sign extension of the low `source` bits to `bits`."""
        top = 1 << (source - 1)
        low = self.mk("and", value, (1 << source) - 1)
        if ones_of(low) & top == 0:
            return low
        return self.low(self.mk("sub", self.mk("xor", low, top), top), bits)

    def choose(self, cond, x, y):
        """x if cond is not 0, otherwise y."""
        if isinstance(cond, int):
            return x if cond else y
        if x is y or (isinstance(x, int) and x == y):
            return x
        if ones_of(cond) == 1 and not (cond.op == "eq" and cond.b == 0 and ones_of(cond.a) == 1):
            bit = cond
        else:
            bit = self.mk("eq", cond, 0)
            x, y = y, x
        if isinstance(x, int) and x == 0 and not isinstance(y, int):
            # y if bit is 0: y and (bit - 1)
            found = self.mk("and", y, self.mk("add", bit, M64))
        else:
            found = self.mk("add", y, self.mk("mul", bit, self.mk("sub", x, y)))
        if not isinstance(found, int) and found.op != "param":
            found.ones &= ones_of(x) | ones_of(y)
        return found

    def operation(self, name, bits, args, at):
        mk, full = self.mk, M64 if bits == 64 else M32
        if len(args) == 1:
            return self._unary(name, bits, args[0])
        a, b = args
        if name in ("add", "sub", "mul"):
            return self.low(mk(name, a, b), bits)
        if name in ("and", "or", "xor", "eq"):
            return mk(name, a, b)
        if name == "ne":
            return self.negate(mk("eq", a, b))
        if name[:2] in ("lt", "gt", "le", "ge") and name[2] == "_":
            if name[3] == "s" and not (ones_of(a) | ones_of(b)) >> (bits - 1):
                name = name[:3] + "u"
            if name[3] == "s":
                a, b = self.signed(a, bits), self.signed(b, bits)
            if name[:2] in ("gt", "le"):
                a, b = b, a
            less = mk("ltu", a, b)
            return less if name[:2] in ("lt", "gt") else self.negate(less)
        if name in ("shl", "shr_u", "shr_s", "rotl", "rotr"):
            return self._shift(name, bits, a, mk("and", b, bits - 1))
        return self._divide(name, bits, a, b, at)

    def _unary(self, name, bits, a):
        mk = self.mk
        if name == "eqz":
            return mk("eq", a, 0)
        if name == "wrap":
            return mk("and", a, M32)
        if name == "extend_u":
            return a
        if name == "extend_s":
            return self.extended(a, 32, 64)
        if name.startswith("ext"):
            return self.extended(a, int(name[3:]), bits)
        if name == "popcnt":
            return self._popcnt(a)
        if name == "ctz":
            if isinstance(a, int):
                return (a & -a).bit_length() - 1 if a else bits
            below = mk("and", mk("xor", a, M64), mk("add", a, M64))
            return self._popcnt(self.low(below, bits))
        if isinstance(a, int):
            return bits - a.bit_length()
        for shift in (1, 2, 4, 8, 16, 32)[:5 if bits == 32 else 6]:
            a = mk("or", a, mk("shr", a, shift))
        return self._popcnt(mk("xor", a, M64 if bits == 64 else M32))

    def _popcnt(self, a):
        mk = self.mk
        if isinstance(a, int):
            return bin(a).count("1")
        a = mk("sub", a, mk("and", mk("shr", a, 1), 0x5555555555555555))
        a = mk("add", mk("and", a, 0x3333333333333333), mk("and", mk("shr", a, 2), 0x3333333333333333))
        a = mk("and", mk("add", a, mk("shr", a, 4)), 0x0F0F0F0F0F0F0F0F)
        return mk("shr", mk("mul", a, 0x0101010101010101), 56)

    def _shift(self, name, bits, a, k):
        mk = self.mk
        if name == "shl":
            return self.low(mk("shl", a, k), bits)
        if name == "shr_u" or (name == "shr_s" and not ones_of(a) >> (bits - 1)):
            return mk("shr", a, k)
        if name == "shr_s":
            if bits == 32:
                return self.low(mk("shr", self.extended(a, 32, 64), k), 32)
            top = 1 << 63
            return mk("sub", mk("shr", mk("xor", a, top), k), mk("shr", top, k))
        if name == "rotr":
            if bits == 32:
                return self.low(mk("shr", self._twice(a), k), 32)
            return mk("or", mk("shr", a, k), mk("shl", a, mk("sub", 64, k)))
        if bits == 32:
            return self.low(mk("shr", self._twice(a), mk("sub", 32, k)), 32)
        return mk("or", mk("shl", a, k), mk("shr", a, mk("sub", 64, k)))

    def _twice(self, a):
        """The 32-bit word a in both halves: then each rotation of it is a shift."""
        return self.mk("mul", a, (1 << 32) + 1)

    # Division: by a constant with products, otherwise with a reciprocal, or with a loop of shifts and subtractions.
    def _divide(self, name, bits, a, b, at):
        mk, top = self.mk, 1 << (bits - 1)
        full = (top << 1) - 1
        kind, sign = name.split("_")
        if isinstance(b, int) and b == 0:
            self.trap(at, BY_ZERO)
            return 0
        if isinstance(b, int) and sign == "s" and b == full and kind == "rem":
            return 0
        if not isinstance(b, int):
            self.trap_if_zero(b, at, BY_ZERO)
        if sign == "s" and not (ones_of(a) | ones_of(b)) & top:
            sign = "u"
        if sign == "u":
            quotient, rest = self._unsigned(a, b, bits)
            return quotient if kind == "div" else rest
        if kind == "div":    # the lowest number divided by -1 does not fit
            if b == full or not isinstance(b, int):
                worst = mk("or", mk("xor", a, top), mk("xor", b, full))
                self.trap_if_zero(worst, at, OVERFLOW)
        if isinstance(b, int) and b & (b - 1) == 0 and b < top:
            return self._signed_power(kind, a, b.bit_length() - 1, bits)
        sign_a, sign_b = mk("shr", a, bits - 1), mk("shr", b, bits - 1)
        absolute_a, absolute_b = self._absolute(a, sign_a, bits), self._absolute(b, sign_b, bits)
        quotient, rest = self._unsigned(absolute_a, absolute_b, bits)
        if kind == "div":
            return self._absolute(quotient, mk("xor", sign_a, sign_b), bits)
        return self._absolute(rest, sign_a, bits)

    def _signed_power(self, kind, a, k, bits):
        """Division by 2^k towards 0, or its remainder: adds 2^k - 1 to a negative number, and then rounds down."""
        mk, top = self.mk, 1 << (bits - 1)
        sign = mk("shr", a, bits - 1)
        more = sign if k == 1 else mk("and", mk("sub", 0, sign), (1 << k) - 1) if k else 0
        if bits == 64:
            quotient = mk("sub", mk("shr", mk("xor", mk("add", a, more), top), k), top >> k)
        else:
            quotient = self.low(mk("sub", mk("shr", mk("add", mk("xor", a, top), more), k), top >> k), bits)
        return quotient if kind == "div" else self.low(mk("sub", a, mk("shl", quotient, k)), bits)

    def _absolute(self, a, sign, bits):
        """-a if sign is 1, otherwise a."""
        mask = self.mk("sub", 0, sign)
        return self.low(self.mk("sub", self.mk("xor", a, mask), mask), bits)

    def _unsigned(self, a, b, bits):
        mk = self.mk
        if isinstance(a, int) and isinstance(b, int):
            return a // b, a % b
        if isinstance(b, int):
            if b & (b - 1) == 0:
                return mk("shr", a, b.bit_length() - 1), mk("and", a, b - 1)
            limit = ones_of(a).bit_length()
            # with m = ceil(2^s / b), n / b = n * m >> s for all n below 2^limit, once m is exact enough
            for s in range(limit, limit + b.bit_length() + 1):
                m = -(-(1 << s) // b)
                if (m * b - (1 << s)) << limit <= 1 << s and m.bit_length() + limit <= 64:
                    quotient = mk("shr", mk("mul", a, m), s)
                    return quotient, mk("sub", a, mk("mul", quotient, b))
            if limit <= 32:
                s = 32 + b.bit_length()
                m = -(-(1 << s) // b) - (1 << 32)
                quotient = mk("shr", mk("add", a, mk("shr", mk("mul", a, m), 32)), s - 32)
                return quotient, mk("sub", a, mk("mul", quotient, b))
        small = ones_of(a) | ones_of(b) <= M32
        if self.loops:
            return self._loop32(a, b) if small else self._loop64(a, b)
        return self.newton32(a, b) if small else self.newton64(a, b)

    def _turns(self, note, starts, turns, step):
        """Makes a loop that applies `step` to the words `turns` times, starting with `starts`; returns the result."""
        g = self.g
        head = g.block(self.depth + 1, note)
        g.at.term = ("jmp", Edge(head, [turns] + starts))
        g.at = head
        left, *words = [g.param(head) for _ in range(len(starts) + 1)]
        words = step(*words)
        left = self.mk("add", left, M64)
        out = g.block(self.depth, note + " done", heir_of=head)
        head.term = ("bz", left, Edge(out), Edge(head, [left] + list(words)))
        g.at = out
        return words

    def _loop32(self, a, b):
        mk = self.mk
        high = mk("shl", b, 31)

        def step(x, high):
            mask = mk("add", mk("ltu", x, high), M64)
            x = mk("sub", x, mk("and", mask, high))
            return mk("sub", mk("shl", x, 1), mask), high

        x, _ = self._turns("divide", [a, high], 32, step)
        quotient, rest = mk("and", x, M32), mk("shr", x, 32)
        return quotient, rest

    def _loop64(self, a, b):
        mk = self.mk

        def step(q, r, d):
            out = mk("shr", r, 63)
            r = mk("add", mk("shl", r, 1), mk("shr", q, 63))
            more = mk("or", out, self.negate(mk("ltu", r, d)))
            r = mk("sub", r, mk("mul", more, d))
            return mk("add", mk("shl", q, 1), more), r, d

        q, r, _ = self._turns("divide", [a, 0, b], 64, step)
        return q, r

    def trap_if_zero(self, value, at, what):
        if isinstance(value, int):
            if value == 0:
                self.trap(at, what)
            return
        g = self.g
        on = g.block(self.depth, heir_of=g.at)
        g.at.term = ("bz", value, self.trap_edge(at, what), Edge(on))
        g.at = on
