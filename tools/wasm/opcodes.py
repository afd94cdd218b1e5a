"""The instructions of WebAssembly: for each opcode its name, the types that it takes and gives, and its immediates."""

I32, I64, F32, F64, V128, FUNCREF, EXTERNREF = 0x7F, 0x7E, 0x7D, 0x7C, 0x7B, 0x70, 0x6F
TYPE_NAMES = {I32: "i32", I64: "i64", F32: "f32", F64: "f64", V128: "v128", FUNCREF: "funcref", EXTERNREF: "externref"}
NUMBERS = (I32, I64, F32, F64)
INTEGERS = (I32, I64)
FLOATS = (F32, F64)

TESTS = "eq ne lt_s lt_u gt_s gt_u le_s le_u ge_s ge_u".split()
UNARY = "clz ctz popcnt".split()
BINARY = "add sub mul div_s div_u rem_s rem_u and or xor shl shr_s shr_u rotl rotr".split()
FLOAT_TESTS = "eq ne lt gt le ge".split()
FLOAT_UNARY = "abs neg ceil floor trunc nearest sqrt".split()
FLOAT_BINARY = "add sub mul div min max copysign".split()

# Numeric instructions: code -> (name, bits, types taken, type given). A name with a dot is one of floating point.
NUMERIC = {}


def _fill():
    def row(first, names, prefix, bits, takes, gives):
        for i, name in enumerate(names):
            NUMERIC[first + i] = (prefix + name, bits, takes, gives)

    for first, kind, bits in ((0x45, I32, 32), (0x50, I64, 64)):
        row(first, ["eqz"], "", bits, (kind,), I32)
        row(first + 1, TESTS, "", bits, (kind, kind), I32)
    for first, kind, bits in ((0x67, I32, 32), (0x79, I64, 64)):
        row(first, UNARY, "", bits, (kind,), kind)
        row(first + 3, BINARY, "", bits, (kind, kind), kind)
    for tests, first, kind, bits in ((0x5B, 0x8B, F32, 32), (0x61, 0x99, F64, 64)):
        row(tests, FLOAT_TESTS, f"f{bits}.", bits, (kind, kind), I32)
        row(first, FLOAT_UNARY, f"f{bits}.", bits, (kind,), kind)
        row(first + 7, FLOAT_BINARY, f"f{bits}.", bits, (kind, kind), kind)
    NUMERIC.update({0xA7: ("wrap", 64, (I64,), I32), 0xAC: ("extend_s", 32, (I32,), I64),
                    0xAD: ("extend_u", 32, (I32,), I64), 0xC0: ("ext8", 32, (I32,), I32),
                    0xC1: ("ext16", 32, (I32,), I32), 0xC2: ("ext8", 64, (I64,), I64),
                    0xC3: ("ext16", 64, (I64,), I64), 0xC4: ("ext32", 64, (I64,), I64)})
    conversions = ((0xA8, I32, F32), (0xAA, I32, F64), (0xAE, I64, F32), (0xB0, I64, F64))
    for first, to, kind in conversions:
        for i, sign in enumerate("su"):
            NUMERIC[first + i] = (f"{TYPE_NAMES[to]}.trunc_{TYPE_NAMES[kind]}_{sign}", 64, (kind,), to)
    for i, (_, to, kind) in enumerate(conversions):
        for j, sign in enumerate("su"):
            NUMERIC[0xFC00 + 2 * i + j] = (f"{TYPE_NAMES[to]}.trunc_sat_{TYPE_NAMES[kind]}_{sign}", 64, (kind,), to)
    for first, kind, to in ((0xB2, I32, F32), (0xB4, I64, F32), (0xB7, I32, F64), (0xB9, I64, F64)):
        for i, sign in enumerate("su"):
            NUMERIC[first + i] = (f"{TYPE_NAMES[to]}.convert_{TYPE_NAMES[kind]}_{sign}", 64, (kind,), to)
    NUMERIC.update({0xB6: ("f32.demote_f64", 64, (F64,), F32), 0xBB: ("f64.promote_f32", 64, (F32,), F64),
                    0xBC: ("reinterpret", 32, (F32,), I32), 0xBD: ("reinterpret", 64, (F64,), I64),
                    0xBE: ("reinterpret", 32, (I32,), F32), 0xBF: ("reinterpret", 64, (I64,), F64)})


_fill()
# Loads: code -> (type given, bits in memory, signed). Stores: code -> (type taken, bits in memory).
LOADS = {0x28: (I32, 32, 0), 0x29: (I64, 64, 0), 0x2A: (F32, 32, 0), 0x2B: (F64, 64, 0), 0x2C: (I32, 8, 1),
         0x2D: (I32, 8, 0), 0x2E: (I32, 16, 1), 0x2F: (I32, 16, 0), 0x30: (I64, 8, 1), 0x31: (I64, 8, 0),
         0x32: (I64, 16, 1), 0x33: (I64, 16, 0), 0x34: (I64, 32, 1), 0x35: (I64, 32, 0)}
STORES = {0x36: (I32, 32), 0x37: (I64, 64), 0x38: (F32, 32), 0x39: (F64, 64), 0x3A: (I32, 8), 0x3B: (I32, 16),
          0x3C: (I64, 8), 0x3D: (I64, 16), 0x3E: (I64, 32)}
CONSTANTS = {0x41: ("i32.const", I32), 0x42: ("i64.const", I64), 0x43: ("f32.const", F32), 0x44: ("f64.const", F64)}
BULK = {8: "memory.init", 9: "data.drop", 10: "memory.copy", 11: "memory.fill"}


def bits_of(kind):
    return 32 if kind in (I32, F32) else 64
