"""Words of 64 bits: the operations of the machine on them, and which bits of a result may be 1."""

M64, M32 = (1 << 64) - 1, (1 << 32) - 1
PURE = {"add", "sub", "mul", "ltu", "eq", "and", "or", "xor", "shl", "shr"}
COMMUTE = {"add", "mul", "eq", "and", "or", "xor"}


def apply(op, a, b):
    if op == "add":
        return (a + b) & M64
    if op == "sub":
        return (a - b) & M64
    if op == "mul":
        return (a * b) & M64
    if op == "ltu":
        return int(a < b)
    if op == "eq":
        return int(a == b)
    if op == "and":
        return a & b
    if op == "or":
        return a | b
    if op == "xor":
        return a ^ b
    if op == "shl":
        return (a << b) & M64 if b < 64 else 0
    return a >> b if b < 64 else 0


def ones_of(x):
    return x if x.__class__ is int else x.ones


def smear(n):
    return (1 << n.bit_length()) - 1


def low_bit(n):
    return n & -n


def ones_of_sum(oa, ob, _):
    return oa | ob if not oa & ob else smear(oa + ob) & M64 & -low_bit(oa | ob)


def ones_of_product(oa, ob, _):
    return smear(oa * ob) & M64 & -(low_bit(oa) * low_bit(ob))


# The bits of a result that may be 1, from those of both operands and from the second operand itself.
ONES = {"and": lambda oa, ob, _: oa & ob, "or": lambda oa, ob, _: oa | ob, "xor": lambda oa, ob, _: oa | ob,
        "add": ones_of_sum, "sub": lambda oa, ob, _: M64 & -low_bit(oa | ob), "mul": ones_of_product,
        "ltu": lambda oa, ob, _: 1, "eq": lambda oa, ob, _: 1,
        "shl": lambda oa, ob, b: (oa << b if b.__class__ is int else smear(oa << min(ob, 64))) & M64,
        "shr": lambda oa, ob, b: oa >> b if b.__class__ is int else smear(oa)}


def ones_after(op, a, b):
    return ONES[op](a if a.__class__ is int else a.ones, b if b.__class__ is int else b.ones, b)
