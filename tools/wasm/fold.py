"""The rules that fold an operation when it is created: constants, masks, comparisons and the bits that may be 1."""
from .words import COMMUTE, M32, M64, apply, ones_after, ones_of, smear

TOP32, TOP64 = 1 << 31, 1 << 63


def has_constant(a):
    """Whether a value is an operation on another value and a constant."""
    return isinstance(a.b, int) and a.a is not None and not isinstance(a.a, int)


class Folding:
    """Mixed into the graph: `mk` gives the value of an operation. `keyed` makes one that no rule folds."""

    def mk(self, op, a, b):
        """The value of an operation, folded if a rule applies."""
        if isinstance(a, int) and isinstance(b, int):
            return apply(op, a, b)
        if isinstance(a, int) and op in COMMUTE:
            a, b = b, a
        found = self.with_constant(op, a, b) if isinstance(b, int) else self.without_constant(op, a, b)
        if found is not None:
            return found
        if op in COMMUTE and not isinstance(b, int) and a.id > b.id:
            a, b = b, a
        ones = ones_after(op, a, b)
        if ones == 0:
            return 0
        return self.keyed(op, a, b, ones)

    # Two values, or a constant before a value
    def without_constant(self, op, a, b):
        if a is b:
            return self.with_itself(op, a)
        if isinstance(a, int):
            return self.constant_first(op, a, b)
        if a.op == b.op == "add" and isinstance(a.b, int) and isinstance(b.b, int):
            if op == "add":
                return self.mk("add", self.mk("add", a.a, b.a), (a.b + b.b) & M64)
            if op == "ltu" and a.b == b.b and max(smear(ones_of(a.a)), smear(ones_of(b.a))) + a.b <= M64:
                return self.mk("ltu", a.a, b.a)
        return None

    def with_itself(self, op, a):
        if op in ("sub", "xor", "ltu"):
            return 0
        if op in ("and", "or"):
            return a
        if op == "eq":
            return 1
        return self.mk("shl", a, 1) if op == "add" else None

    def constant_first(self, op, a, b):
        if a == 0 and op in ("shl", "shr"):
            return 0
        if op == "sub":
            return self.mk("add", self.mk("mul", b, M64), a)
        if op == "ltu":
            if a == M64:
                return 0
            if a == 0:
                return b if ones_of(b) == 1 else self.mk("eq", self.mk("eq", b, 0), 0)
            return self.mk("eq", self.mk("ltu", b, a + 1), 0)
        return None

    # A value and a constant
    def with_constant(self, op, a, c):
        if c == 0:
            if op in ("add", "sub", "or", "xor", "shl", "shr"):
                return a
            if op in ("mul", "and", "ltu"):
                return 0
        return RULES[op](self, a, c, has_constant(a))

    def sub_word(self, a, c, _):
        return self.mk("add", a, -c & M64)

    def add_word(self, a, c, deep):
        return self.mk("add", a.a, (a.b + c) & M64) if a.op == "add" and deep else None

    def mul_word(self, a, c, deep):
        if c == 1:
            return a
        if c & (c - 1) == 0:
            return self.mk("shl", a, c.bit_length() - 1)
        return self.mk("mul", a.a, (a.b * c) & M64) if a.op == "mul" and deep else None

    def and_word(self, a, c, deep):
        ones = ones_of(a)
        if ones & ~c & M64 == 0:
            return a
        if ones & c == 0:
            return 0
        if a.op == "and" and deep:
            return self.mk("and", a.a, a.b & c)
        if a.op == "add" and deep:
            if a.b & smear(c) == 0:
                return self.mk("and", a.a, c)
            if a.b & smear(c) == smear(c) and ones_of(a.a) == 1:
                bit = a.a       # a bit minus 1: c where the bit is 0, and 0 otherwise
                turned = bit.a if bit.op == "eq" and bit.b == 0 and ones_of(bit.a) == 1 else self.mk("eq", bit, 0)
                return self.mk("mul", turned, c)
        if a.op in ("or", "xor"):
            for x, y in ((a.a, a.b), (a.b, a.a)):
                if ones_of(x) & c == 0:
                    return self.mk("and", y, c)
        return None

    def or_word(self, a, c, deep):
        if c == M64:
            return M64
        return self.mk("or", a.a, a.b | c) if a.op == "or" and deep else None

    def xor_word(self, a, c, deep):
        if a.op == "xor" and deep:
            return self.mk("xor", a.a, a.b ^ c)
        if c == 1 and ones_of(a) == 1:
            return self.mk("eq", a, 0)
        if c == TOP64 and a.op == "add" and deep:       # flipping the highest bit is adding it
            return self.mk("add", a.a, a.b ^ c)
        if c == TOP32 and a.op == "and" and a.b == M32 and not isinstance(a.a, int) and a.a.op == "add":
            x, k = a.a.a, a.a.b
            if isinstance(k, int) and not isinstance(x, int) and smear(ones_of(x)) + ((k + c) & M32) <= M32:
                return self.mk("add", x, (k + c) & M32)
        return None

    def shl_word(self, a, c, deep):
        if c >= 64:
            return 0
        if a.op == "shl" and deep:
            return self.mk("shl", a.a, a.b + c) if a.b + c < 64 else 0
        return None

    def shr_word(self, a, c, deep):
        if c >= 64 or ones_of(a) >> c == 0:
            return 0
        if not deep:
            return None
        if a.op == "shr":
            return self.mk("shr", a.a, a.b + c) if a.b + c < 64 else 0
        if a.op == "and" and (ones_of(a.a) & ~a.b) >> c == 0:
            return self.mk("shr", a.a, c)
        if a.op == "shl":
            inner = self.mk("shl", a.a, a.b - c) if a.b >= c else self.mk("shr", a.a, c - a.b)
            return self.mk("and", inner, (M64 << a.b & M64) >> c)
        x = a.a
        if a.op == "and" and x.op == "shl" and isinstance(x.b, int):
            return self.mk("and", self.mk("shr", x, c), a.b >> c)
        if a.op == "xor" and (x.op == "shl" or x.op == "and" and not isinstance(x.a, int) and x.a.op == "shl"):
            return self.mk("xor", self.mk("shr", x, c), a.b >> c)
        return None

    def ltu_word(self, a, c, deep):
        if smear(ones_of(a)) < c:
            return 1
        if c == 1:
            return self.mk("eq", a, 0)
        if a.op == "add" and deep and smear(ones_of(a.a)) + a.b <= M64:
            return self.mk("ltu", a.a, c - a.b) if c > a.b else 0
        if a.op == "add" and deep and a.a.op == "and" and a.a.b == M32 and c + (-a.b & M64) <= M32:
            x = a.a.a       # with 32 bits, too, a difference that wraps around is not below c
            if not isinstance(x, int) and x.op == "add" and isinstance(x.b, int):
                return self.mk("ltu", self.mk("and", self.mk("add", x, a.b), M32), c)
        if a.op == "xor" and deep and a.b == c and c & (c - 1) == 0 and ones_of(a.a) < 2 * c:
            return self.mk("shr", a.a, c.bit_length() - 1)      # whether the highest bit is 1
        return None

    def eq_word(self, a, c, deep):
        if c & ~ones_of(a):
            return 0
        if ones_of(a) == 1 and c == 1:
            return a
        if c == 0 and a.op == "eq" and a.b == 0 and ones_of(a.a) == 1:
            return a.a
        if c == 0 and a.op in ("xor", "sub"):
            return self.mk("eq", a.a, a.b)
        if a.op == "xor" and deep:
            return self.mk("eq", a.a, a.b ^ c)
        if a.op == "add" and deep:
            return self.mk("eq", a.a, (c - a.b) & M64)
        if a.op == "and" and a.b == M32 and not isinstance(a.a, int) and a.a.op in ("add", "sub"):
            s = a.a
            if isinstance(s.b, int) and s.op == "add" and ones_of(s.a) <= M32:
                return self.mk("eq", s.a, (c - s.b) & M32)
            if s.op == "sub" and c == 0 and ones_of(s.a) <= M32 and ones_of(s.b) <= M32:
                return self.mk("eq", s.a, s.b)
        return None


RULES = {"add": Folding.add_word, "sub": Folding.sub_word, "mul": Folding.mul_word, "and": Folding.and_word,
         "or": Folding.or_word, "xor": Folding.xor_word, "shl": Folding.shl_word, "shr": Folding.shr_word,
         "ltu": Folding.ltu_word, "eq": Folding.eq_word}
