"""Bytes that are not an object, and valid objects with every table at its limit."""
from limits_objects import *
from limits_rows import *

# Bytes that are not an object.
over_objects("zeros", "zero bytes", 64 * MIB, "bytes", bytes, refused("object 1 0"))
over_objects("beyond", "one byte over the limit", 64 * MIB + 1, "bytes", bytes,
             {c: (lambda n: (7, "object 2 67108864" if n > 64 * MIB else "object 1 0")) for c in OBJECT_COMMANDS})
FIVE = spell(memory(), mov(0, GREEN, OUT, REF_INT) + mov(1, GREEN, 5) + mov(32, BLUE, OUT, REF_INT) + mov(33, BLUE, 5)
             + store(GREEN, 0, 1) + store(BLUE, 32, 33) + HALT)
over_objects("tail", "an object with zero bytes after it", 64 * MIB, "bytes", lambda n: FIVE + bytes(n - len(FIVE)),
             refused("object 2 219"))
GREATEST = b"TALFT\0\0\1" + rows([1024, 1048576, 4096, 262144, 32768, 65536, 65536, 1048576, 32768, 0])
over_objects("greatest", "a header with the greatest counts, and zero bytes", 64 * MIB, "bytes",
             lambda n: GREATEST + bytes(n - 48), refused("object 2 26066992"))
GREATEST_SECOND = b"TALFT\0\0\2" + rows([1024, 1048576, 4096, 262144, 32768, 65536, 65536, 1048576, 40960, 0])
over_objects("greatest-second", "a header of version 2 with the greatest counts, and zero bytes", 64 * MIB, "bytes",
             lambda n: GREATEST_SECOND + bytes(n - 48), refused("object 2 26075184"))
over_objects("kinds", "nodes, the last of an unknown kind", 1048576, "nodes",
             lambda n: spell(memory() * (n - 1) + b"\6" + bytes(15), HALT),
             {c: (lambda n: (7, f"object 5 {64 + 16 * (n - 1)}")) for c in OBJECT_COMMANDS})


# Valid objects at the limits.
def names_of(count, length=32):
    return b"".join(b"n%0*d" % (length - 1, number) for number in range(count))


def cells_of(count, length=32, word=0):
    return b"".join(cell(length * (number + 1), word) for number in range(count))


def many_types(count, registers, queue):
    """Types; all but the first have rows for this many registers and pairs, with nodes from 1 on."""
    types, regs, queues, node = [code_type()], [], [], 1
    for number in range(1, count):
        for register in range(registers):
            regs.append(register_row(register, register // 32, node))
            node += 1
        queues.append(pair(node - 1, node - 1) * queue)
        types.append(code_type(number * registers, number * queue, 0))
    return b"".join(types), b"".join(regs), b"".join(queues)


def largest(n, version=1, length=32):
    """Each table is filled to n / 65,536 of its limit, except that the first type has no rows. The last eighth of the
    blocks are blue jumps, whose substitutions fill the table of substitution rows."""
    types, regs, queues = many_types(n // 16, 64, 8)
    jumps = n // 8
    return spell(memory() + words_from(1, 16 * n - 1), HALT * (n - jumps) + b"".join(
        jump(BLUE, 1, 128 * k, 128 * k + 128, 0) for k in range(jumps)), types,
        b"".join(pair(k, 0) for k in range(n)), cells_of(n // 64, length), names_of(n // 64, length), regs, queues,
        rows([1] * (128 * jumps)), version)


# The check refuses the first of the blocks that jump.
LARGEST = {c: (lambda n, a=a: (a(n)[0], f"check block {n - n // 8} index 0 premise 1" if a(n)[0] == 8 else a(n)[1]))
           for c, a in unaccepted("").items()}
over_objects("largest", "every table at its limit, by number of instructions", 65536, "instructions", largest,
             LARGEST)
over_objects("largest-second", "every version 2 table at its limit, by number of instructions", 65536, "instructions",
             lambda n: largest(n, 2, 40), {c: LARGEST[c] for c in ("check", "upgrade", "dis")})
over_objects("halts", "blocks of one instruction", 65536, "blocks",
             lambda n: spell(memory(), HALT * n, None, b"".join(pair(k, 0) for k in range(n))), HALTS)
over_objects("moves", "a `mov` per instruction", 65536, "instructions",
             lambda n: spell(memory(), b"".join(mov(k % 32, GREEN, k) for k in range(n - 1)) + HALT), HALTS)


def typed_blocks(n):
    types, regs, _ = many_types(4096, 64, 0)
    return spell(memory() + words_from(1, 1048575), HALT * n, types, pair(0, 0) + b"".join(
        pair(k, k % 4096) for k in range(1, n)), regs=regs)


over_objects("typed", "blocks of 4,096 types of 64 register rows", 65536, "blocks", typed_blocks, {"check": HALTS["check"]})
over_objects("stores", "stores to 1,024 cells, each green and then blue", 65536, "instructions", lambda n: spell(
    memory(), b"".join(mov(0, GREEN, OUT + k % 1024, REF_INT) + mov(32, BLUE, OUT + k % 1024, REF_INT) + store(GREEN, 0, 0)
                       + store(BLUE, 32, 32) for k in range((n - 1) // 4)) + HALT, cells=cells_of(1024), names=names_of(1024)),
    {"check": HALTS["check"], "run": lambda n: (0, "n%031d %d" % (((n - 1) // 4 - 1) % 1024, OUT + ((n - 1) // 4 - 1) % 1024)),
     "debug": HALTS["debug"]})
over_objects("names", "cells whose names differ in their last bytes", 1024, "cells",
             lambda n: spell(memory(), HALT, cells=cells_of(n), names=names_of(n)), HALTS, power=2)
over_objects("indexes", "an `idx` over 1,024 cells per instruction", 65536, "instructions",
             lambda n: spell(memory(), mov(0, GREEN, 4) + b"".join(idx(1 + k % 31, 0, 0, 1024) for k in range(n - 2)) + HALT,
                             cells=cells_of(1024, 40), names=names_of(1024, 40), version=2), HALTS)
over_objects("crossing", "moves of one block, the first half blue and the second green", 65536, "instructions",
             lambda n: spell(memory(), b"".join(mov(32 + k % 32, BLUE, k) for k in range(n // 2)) + b"".join(
                 mov(k % 32, GREEN, k) for k in range(n // 2 - 1)) + HALT),
             {c: HALTS[c] for c in ("check", "schedule", "run", "recover")})
over_objects("late", "blue stores that each wait for a green one, over 1,024 cells", 65536, "instructions", lambda n: spell(
    memory(), b"".join(mov(32, BLUE, OUT + k % 1024, REF_INT) + mov(0, GREEN, OUT + k % 1024, REF_INT) + store(GREEN, 0, 0)
                       + store(BLUE, 32, 32) for k in range((n - 1) // 4)) + HALT, cells=cells_of(1024), names=names_of(1024)),
    {"check": HALTS["check"], "schedule": HALTS["schedule"]})
