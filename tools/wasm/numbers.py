"""Floating-point instructions for the interpreter, over the bits of numbers of single and double precision."""
import math
import struct

from .traps import TOO_LARGE

FORMS = {32: ("<I", "<f", 0x7F800000, 0x400000), 64: ("<Q", "<d", 0x7FF0000000000000, 0x8000000000000)}


def number(word, bits):
    as_word, as_number, _, _ = FORMS[bits]
    return struct.unpack(as_number, struct.pack(as_word, word))[0]


def is_nan(word, bits):
    return word & ((1 << bits - 1) - 1) > FORMS[bits][2]


def word_of(value, bits):
    """The bits of the nearest number. A NaN has the bits that hardware gives it, without a sign."""
    as_word, as_number, infinity, quiet = FORMS[bits]
    if math.isnan(value):
        return infinity | quiet
    try:
        return struct.unpack(as_word, struct.pack(as_number, value))[0]
    except OverflowError:
        return infinity | (1 << bits - 1 if value < 0 else 0)


def divided(a, b):
    if b != 0:
        return a / b
    if a == 0 or math.isnan(a):
        return math.nan
    return math.copysign(math.inf, a) * math.copysign(1, b)


def product(a, b):
    return math.nan if math.isinf(a) and b == 0 or math.isinf(b) and a == 0 else a * b


def arithmetic(bits, apply):
    """An instruction on two numbers. A NaN passes through, as a quiet one."""
    def run(a, b):
        for word in (a, b):
            if is_nan(word, bits):
                return word | FORMS[bits][3]
        return word_of(apply(number(a, bits), number(b, bits)), bits)
    return run


def least(a, b):
    return (a if math.copysign(1, a) < 0 else b) if a == b == 0 else min(a, b)


def most(a, b):
    return (b if math.copysign(1, a) < 0 else a) if a == b == 0 else max(a, b)


def rounded(bits, apply):
    def run(a):
        value = number(a, bits)
        if is_nan(a, bits):
            return a | FORMS[bits][3]
        if math.isinf(value) or value == 0:
            return a
        # If the result is 0, the sign stays.
        return word_of(math.copysign(apply(value), value), bits)
    return run


def root(bits):
    def run(a):
        if is_nan(a, bits):
            return a | FORMS[bits][3]
        value = number(a, bits)
        return word_of(math.nan if value < 0 else math.sqrt(value), bits)
    return run


def nearest_of(whole, bits):
    """The bits of the floating-point number nearest to an integer; in a tie, of the even one."""
    fraction = {32: 24, 64: 53}[bits]
    size = abs(whole)
    shift = size.bit_length() - fraction
    if shift > 0:
        kept, rest, half = size >> shift, size & ((1 << shift) - 1), 1 << shift - 1
        size = kept + (rest > half or rest == half and kept & 1) << shift
    return word_of(float(-size if whole < 0 else size), bits)


def truncated(a, bits, to, is_signed, trap):
    """A number truncated toward 0. One that does not fit traps, or, without a trap, gives the nearest that does."""
    low, high = (-(1 << to - 1), (1 << to - 1) - 1) if is_signed else (0, (1 << to) - 1)
    value = number(a, bits)
    if math.isnan(value) or math.isinf(value) or not low <= math.trunc(value) <= high:
        if trap:
            raise trap(TOO_LARGE)
        return 0 if math.isnan(value) else (low if value < 0 else high) % (1 << to)
    return math.trunc(value) % (1 << to)


def signed(word, bits):
    return word - (1 << bits) if word >> bits - 1 else word


def of_form(bits, first_test, first_one, first_two):
    """The instructions on numbers of this many bits, by opcode: those with one operand, and those with two."""
    top = 1 << bits - 1
    tests = [lambda a, b: a == b, lambda a, b: a != b, lambda a, b: a < b, lambda a, b: a > b, lambda a, b: a <= b,
             lambda a, b: a >= b]
    ones = [lambda a: a & top - 1, lambda a: a ^ top, rounded(bits, math.ceil), rounded(bits, math.floor),
            rounded(bits, math.trunc), rounded(bits, round), root(bits)]
    twos = [arithmetic(bits, lambda a, b: a + b if not (math.isinf(a) and math.isinf(b) and a != b) else math.nan),
            arithmetic(bits, lambda a, b: a - b if not (math.isinf(a) and math.isinf(b) and a == b) else math.nan),
            arithmetic(bits, product), arithmetic(bits, divided), arithmetic(bits, least), arithmetic(bits, most),
            lambda a, b: a & top - 1 | b & top]
    by_test = {first_test + n: (lambda a, b, test=test: int(test(number(a, bits), number(b, bits))))
               for n, test in enumerate(tests)}
    return ({first_one + n: apply for n, apply in enumerate(ones)},
            {**by_test, **{first_two + n: apply for n, apply in enumerate(twos)}})


def conversions(trap):
    """The conversions between integers and floating-point numbers, and between the forms of the latter."""
    found = {0xB6: lambda a: a >> 32 & 0x80000000 | 0x7FC00000 if is_nan(a, 64) else word_of(number(a, 64), 32),
             0xBB: lambda a: (a & 0x80000000) << 32 | 0x7FF8 << 48 if is_nan(a, 32) else word_of(number(a, 32), 64)}
    found.update(dict.fromkeys((0xBC, 0xBD, 0xBE, 0xBF), lambda a: a))
    for whole, (exact, near) in ((32, (0xA8, 0xFC00)), (64, (0xAE, 0xFC04))):
        for n, (bits, is_signed) in enumerate(((32, True), (32, False), (64, True), (64, False))):
            found[exact + n] = lambda a, b=bits, w=whole, s=is_signed: truncated(a, b, w, s, trap)
            found[near + n] = lambda a, b=bits, w=whole, s=is_signed: truncated(a, b, w, s, None)
    for bits, first in ((32, 0xB2), (64, 0xB7)):
        for n, (whole, is_signed) in enumerate(((32, True), (32, False), (64, True), (64, False))):
            found[first + n] = lambda a, b=bits, w=whole, s=is_signed: nearest_of(signed(a, w) if s else a, b)
    return found
