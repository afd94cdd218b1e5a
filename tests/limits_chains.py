"""Chains of nodes that the code types of blocks refer to."""
from limits_objects import *
from limits_rows import *


# The last node of these chains is the expression of two registers in a block that jumps to itself.
def own(nodes, top, ints=1, memory=0, before=b"", version=1):
    """Block 0 halts. Block 1 jumps to itself; in its type, a green and a blue register have the node `top`. The nodes
    begin with the memory variable and the integer variables."""
    rows_of_type = register_row(0, GREEN, top) + register_row(32, BLUE, top)
    block = before + mov(1, GREEN, 2, code(1)) + mov(33, BLUE, 2, code(1)) + jump(GREEN, 1) + jump(BLUE, 33, 0, ints, memory)
    return spell(nodes, HALT + block, code_type() + code_type(2, 0, memory, ints), pair(0, 0) + pair(1, 1), regs=rows_of_type,
                 substs=rows([1 + i for i in range(ints)]), version=version)


def variables(count):
    return memory() + b"".join(variable(i, count) for i in range(count))


def chain(name, what, make, full=1048576, unit="nodes", power=1, answers=None):
    over_objects(name, what, full, unit, make, answers or {"check": HALTS["check"]}, power=power)


def pairs_of(op, version=1):
    """Each node applies the operation to the one before it, as both operands."""
    return lambda n: own(variables(1) + b"".join(operation(op, k - 1, k - 1, 1) for k in range(2, n)), n - 1, version=version)


def remainders(n):
    """Each node is the one before it modulo 1,024."""
    return own(variables(1) + b"".join(remainder(k - 1, 1024, 1) for k in range(2, n)), n - 1, version=2)


def steps_by(op, value):
    """Each node applies the operation to the one before it and a word."""
    return lambda n: own(variables(1) + word(value, 1) + b"".join(
        operation(op, k - 1 if k > 3 else 1, 2, 1) for k in range(3, n)), n - 1)


def total(first, count, at, scope):
    """Nodes from number `at` on that add up the nodes from `first` on. The last one is the sum."""
    nodes = [operation(ADD, first, first + 1, scope)]
    nodes += [operation(ADD, at + k - 1, first + k + 1, scope) for k in range(1, count - 1)]
    return b"".join(nodes)


def fibonacci(n):
    """Each node is the sum of the two before it; the first are sums of 32 of 64 variables."""
    nodes = variables(64) + total(1, 32, 65, 64) + total(33, 32, 96, 64)
    at = 127
    first = operation(ADD, 95, 126, 64) + operation(ADD, 127, 126, 64)
    return own(nodes + first + b"".join(operation(ADD, k - 1, k - 2, 64) for k in range(at + 2, n)), n - 1, 64)


def levels(n):
    """Three sums and an ltu at each level."""
    nodes = [variables(2)]
    x, y, at = 1, 2, 3
    while at + 4 <= n:
        nodes += [operation(ADD, x, y, 2), operation(ADD, at, x, 2), operation(ADD, at + 1, at, 2),
                  operation(LTU, at + 1, at + 2, 2)]
        x, y, at = at + 2, at + 3, at + 4
    return own(b"".join(nodes), at - 1, 2)


def scaled(n):
    """The product of two sums of eight products, with 64 monomials of four atoms; then each node is three times the one
    before it."""
    nodes = variables(32) + word(3, 32) + b"".join(operation(MUL, 1 + k, 17 + k, 32) for k in range(16))
    nodes += total(34, 8, 50, 32) + total(42, 8, 57, 32) + operation(MUL, 56, 63, 32)
    return own(nodes + b"".join(operation(MUL, k - 1, 33, 32) for k in range(65, n)), n - 1, 32)


def products(n, degree=1):
    """Products of sums of eight monomials of a degree, all different: each has 64 monomials. Comparisons join them."""
    nodes, at, sums = [variables(128)], 129, ([], [])
    for side in (0, 1):
        parts = [1 + 64 * side + k for k in range(64)]
        if degree == 2:
            nodes += [operation(MUL, parts[k], parts[(k + 1) % 64], 128) for k in range(64)]
            parts, at = list(range(at, at + 64)), at + 64
        for step in range(1, 32, 2):
            for start in range(64):
                terms = [parts[(start + step * k) % 64] for k in range(8)]
                nodes.append(operation(ADD, terms[0], terms[1], 128))
                nodes += [operation(ADD, at + k - 2, terms[k], 128) for k in range(2, 8)]
                at += 7
                sums[side].append(at - 1)
    last, place, count = 1, 0, len(sums[0])
    while at + 2 <= n:
        i, j = divmod(place, count)
        nodes += [operation(MUL, sums[0][(i + j) % count], sums[1][j], 128), operation(LTU, last, at, 128)]
        last, at, place = at + 1, at + 2, place + 1
        if place == count * count:
            place = 0
    return own(b"".join(nodes), last, 128)


def monomials(n, count=1024):
    """Products of sums of eight squares of comparisons. No two products have a monomial of four atoms in common."""
    nodes, at, sums = [variables(1)], 2, ([], [])
    for number in range(2 * count):
        for k in range(8):
            nodes += [word(8 * number + k), operation(LTU, 1, at + 3 * k, 1), operation(MUL, at + 3 * k + 1, at + 3 * k + 1, 1)]
        nodes.append(operation(ADD, at + 2, at + 5, 1))
        nodes += [operation(ADD, at + 22 + k, at + 3 * k + 2, 1) for k in range(2, 8)]
        at += 31
        sums[number % 2].append(at - 1)
    last, place = 1, 0
    while at + 2 <= n:
        i, j = divmod(place, count)
        nodes += [operation(MUL, sums[0][(i + j) % count], sums[1][j], 1), operation(LTU, last, at, 1)]
        last, at, place = at + 1, at + 2, place + 1
    return own(b"".join(nodes), last)


def sliding(n, count=4096):
    """Sums of 63 or 64 products each, chosen from this many products of four variables. Each is the one before it without
    the oldest of its products, or with one more. The order in which products are added changes in each round."""
    nodes, at = [variables(32)], 33
    pairs = [[(i, j) for i in range(low, low + 16) for j in range(i + 1, low + 16)][:64] for low in (1, 17)]
    nodes += [operation(MUL, i, j, 32) for i, j in pairs[0] + pairs[1]]
    nodes += [operation(MUL, at + k % 64, at + 64 + k // 64, 32) for k in range(count)]
    first, at = at + 128, at + 128 + count
    nodes.append(total(first, 64, at, 32))
    at += 63
    window, turn = list(range(64)), 64
    while at + 2 <= n:
        fresh = turn * (2 * (turn // count) + 1) % count
        turn += 1
        if fresh in window:
            continue
        nodes += [operation(SUB, at - 1, first + window.pop(0), 32), operation(ADD, at, first + fresh, 32)]
        window.append(fresh)
        at += 2
    return own(b"".join(nodes), at - 1, 32)


def updates(n):
    """Each node updates the memory before it. Two addresses take turns, so no update replaces the one before it."""
    nodes = variables(2) + upd(0, 1, 2, 2) + b"".join(upd(k - 1, 1 + k % 2, 1, 2) for k in range(4, n))
    return own(nodes + sel(n - 1, 1, 2), n, 2)


def walks(n):
    """A fifth of the nodes each: addresses, updates there, other addresses, the words there, and comparisons that join
    them. The search for each word passes all updates."""
    count = n // 5
    nodes = [variables(1), b"".join(word(OUT + k, 1) for k in range(2 * count))]
    at = 2 + 2 * count
    nodes += [upd(0 if k == 0 else at + k - 1, 2 + k, 1, 1) for k in range(count)]
    top, at = at + count - 1, at + count
    nodes += [sel(top, 2 + count + k, 1) for k in range(count)]
    nodes += [operation(LTU, at + k, 1 if k == 0 else at + count + k - 1, 1) for k in range(count)]
    return own(b"".join(nodes), at + 2 * count - 1)


def long_walks(n):
    """Like `walks`, but each address is a sum of 63 variables and a word."""
    count = n // 7
    nodes = [variables(63), total(1, 63, 64, 63)]
    nodes += [word(OUT + k, 63) for k in range(2 * count)]
    nodes += [operation(ADD, 125, 126 + k, 63) for k in range(2 * count)]
    addresses, at = 126 + 2 * count, 126 + 4 * count
    nodes += [upd(0 if k == 0 else at + k - 1, addresses + k, 1, 63) for k in range(count)]
    top, at = at + count - 1, at + count
    nodes += [sel(top, addresses + count + k, 63) for k in range(count)]
    nodes += [operation(LTU, at + k, 1 if k == 0 else at + count + k - 1, 63) for k in range(count)]
    return own(b"".join(nodes), at + 2 * count - 1, 63)


chain("words", "nodes, each a word", lambda n: own(variables(1) + words_from(0, n - 2), 2))
chain("added-words", "nodes, each the word before it plus 1", steps_by(ADD, 1))
chain("ltu", "nodes, each `ltu` of the one before it twice", pairs_of(LTU))
chain("eq", "nodes, each `eq` of the one before it twice", pairs_of(EQ))
chain("xor", "nodes, each `xor` of the one before it twice", pairs_of(XOR, 2))
chain("rem", "nodes, each the remainder by 1,024 of the one before it", remainders)
chain("sums", "nodes, each the sum of the one before it twice", pairs_of(ADD))
chain("differences", "nodes, each the one before it minus 1", steps_by(SUB, 1))
chain("multiples", "nodes, each three times the one before it", steps_by(MUL, 3))
chain("squares", "nodes, each the product of the one before it twice", pairs_of(MUL))
chain("levels", "nodes, three sums and an `ltu` per level", levels)
chain("fibonacci", "nodes, each the sum of the two before it, over 64 variables", fibonacci)
chain("scaled", "nodes of 64 monomials of four atoms, each three times the one before", scaled)
chain("products", "nodes, products of unlike sums of eight variables and `ltu` of them", products)
chain("quartics", "nodes, products of unlike sums of eight products of variables and `ltu` of them", lambda n: products(n, 2))
chain("sliding", "nodes, each a sum of the last 63 or 64 of many products of four variables", sliding)
chain("monomials", "nodes, products of unlike sums of eight squares of comparisons, and `ltu` of them", monomials)
chain("updates", "nodes, each an update of the memory before it", updates, 1048575)
chain("walks", "nodes, of which a fifth are words sought through as many updates", walks, 65536, power=2)
chain("long-walks", "nodes, of which a seventh are words sought through as many updates at sums of 64 terms", long_walks, 16384, power=2)


def tower(n, towers, jumps):
    """A block for each jump, which passes a new word to a block whose register holds a tower of n multiples of it."""
    nodes = [variables(1), word(3, 1), operation(MUL, 1, 2, 1)]
    nodes += [operation(MUL, k - 1, 2, 1) for k in range(4, n + 3)]
    words, instrs = [], [HALT, mov(1, GREEN, 2, code(1)), mov(33, BLUE, 2, code(1)), jump(GREEN, 1), jump(BLUE, 33, 0, 1, 0)]
    blocks, substs, at = [pair(0, 0), pair(1, 1)], [1], 5
    factor = pow(3, n, 1 << 64)
    for k in range(jumps):
        words.append(word(5 + 2 * k))
        value = (5 + 2 * k) * factor % (1 << 64)
        blocks.append(pair(at, 0))
        instrs += [mov(0, GREEN, value), mov(32, BLUE, value), mov(1, GREEN, 2, code(1)), mov(33, BLUE, 2, code(1)),
                   jump(GREEN, 1), jump(BLUE, 33, 1 + k, 2 + k, 0)]
        substs.append(n + 3 + k)
        at += 6
    rows_of_type = register_row(0, GREEN, n + 2) + register_row(32, BLUE, n + 2)
    return spell(b"".join(nodes + words), b"".join(instrs), code_type() + code_type(2, 0, 0, 1), b"".join(blocks),
                 regs=rows_of_type, substs=rows(substs))


chain("jumps", "jumps, each with another word under 16,384 nodes", lambda n: tower(16384, 1, n), 64, "jumps")
chain("tower", "nodes under each of 16 jumps, each with another word", lambda n: tower(n, 1, 16), 65536, "nodes")


def turned(n, sums=16384):
    """Blocks that jump to one another, each with the 64 variables in another order under a tower of sums. The registers
    hold the last sum minus itself, so all jumps are accepted."""
    nodes = variables(64) + total(1, 32, 65, 64) + total(33, 32, 96, 64) + operation(ADD, 95, 126, 64) + operation(ADD, 127, 126, 64)
    top = 127 + sums - 1
    nodes += b"".join(operation(ADD, k - 1, k - 2, 64) for k in range(129, top + 1)) + operation(SUB, top, top, 64)
    blocks = [mov(1, GREEN, 2, code(1)) + mov(33, BLUE, 2, code(1)) + jump(GREEN, 1) + jump(BLUE, 33, 64 * k, 64 * k + 64, 0)
              for k in range(n)]
    return spell(nodes, HALT + b"".join(blocks), code_type() + code_type(2, 0, 0, 64),
                 pair(0, 0) + b"".join(pair(1 + 4 * k, 1) for k in range(n)),
                 regs=register_row(0, GREEN, top + 1) + register_row(32, BLUE, top + 1),
                 substs=rows([1 + (i + k + 1) % 64 for k in range(n) for i in range(64)]))


chain("turned", "jumps, each with 64 variables in another order under 16,384 sums", turned, 32, "jumps")


def many_branches(n):
    """One block of branches, each with 32 substitution rows, to a block of 32 variables in 64 registers."""
    ints = 32
    regs = b"".join(register_row(r, r // 32, 1 + r % 32) for r in range(64) if r not in (30, 31, 62, 63))
    head = mov(30, GREEN, 0) + mov(31, GREEN, 2, code(1)) + mov(62, BLUE, 0) + mov(63, BLUE, 2, code(1))
    count = (n - 7) // 2
    body = b"".join(branch(GREEN, 30, 31) + branch(BLUE, 62, 63, ints * k, ints * k + ints, 0) for k in range(count))
    end = jump(GREEN, 31) + jump(BLUE, 63, ints * count, ints * count + ints, 0)
    return spell(variables(ints), HALT + head + body + end, code_type() + code_type(60, 0, 0, ints), pair(0, 0) + pair(1, 1),
                 regs=regs, substs=rows(list(range(1, ints + 1)) * (count + 1)))


chain("branches", "instructions, branches in one block with 60 register rows", many_branches, 65536, "instructions")


def product(first):
    """Nodes from number `first` on, and the number of the last: a product with 64 monomials of up to four comparisons with
    variable 1."""
    nodes = [word(OUT + k, 1) for k in range(8)] + [operation(LTU, 1, first + k, 1) for k in range(8)] + [word(1, 1)]
    one, at = first + 16, first + 17
    for atom in (first + 8, first + 12):
        nodes += [operation(ADD, atom, one, 1), operation(ADD, atom + 1, one, 1), operation(ADD, at + 1, atom + 2, 1),
                  operation(ADD, at + 2, atom + 3, 1), operation(MUL, at, at + 3, 1)]
        at += 5
    return nodes + [operation(MUL, at - 6, at - 1, 1)], at


def passing(nodes, top, passed):
    """Block 1 branches to itself once for each node of `passed`, which becomes its variable. The registers hold a node minus
    itself, so all branches are accepted; each computes the node anew."""
    nodes += operation(SUB, top, top, 1)
    last, count = len(nodes) // 16 - 1, len(passed)
    head = mov(30, GREEN, 0) + mov(31, GREEN, 2, code(1)) + mov(62, BLUE, 0) + mov(63, BLUE, 2, code(1))
    body = b"".join(branch(GREEN, 30, 31) + branch(BLUE, 62, 63, k, k + 1) for k in range(count))
    end = jump(GREEN, 31) + jump(BLUE, 63, count, count + 1)
    return spell(nodes, HALT + head + body + end, code_type() + code_type(2, 0, 0, 1), pair(0, 0) + pair(1, 1),
                 regs=register_row(0, GREEN, last) + register_row(32, BLUE, last), substs=rows(passed + [1]))


def passed_products(n):
    """As many branches as multiples of a product in a chain; each passes another of these."""
    nodes, at = product(2)
    nodes = [variables(1), *nodes, word(3, 1), operation(MUL, at, at + 1, 1)]
    nodes += [operation(MUL, at + 2 + k, at + 1, 1) for k in range(n - 1)]
    return passing(b"".join(nodes), at + n + 1, [at + 2 + k for k in range(n)])


def passed_searches(n):
    """As many branches as updates, and as searches that pass all updates. Addresses are a product plus a word; each branch passes
    another sum for the variable."""
    nodes, at = product(2)
    nodes += [operation(ADD, 1, 2, 1), operation(ADD, 1, 3, 1)]
    nodes += [word(3 * OUT + k, 1) for k in range(2 * n)]
    nodes += [operation(ADD, at, at + 3 + k, 1) for k in range(2 * n)]
    addresses, top = at + 3 + 2 * n, at + 3 + 4 * n
    nodes += [upd(0 if k == 0 else top + k - 1, addresses + k, 1, 1) for k in range(n)]
    found = top + n
    nodes += [sel(found - 1, addresses + n + k, 1) for k in range(n)]
    nodes += [operation(LTU, found + k, 1 if k == 0 else found + n + k - 1, 1) for k in range(n)]
    return passing(variables(1) + b"".join(nodes), found + 2 * n - 1, [at + 1 + k % 2 for k in range(n)])


chain("passed-products", "branches that each pass another of as many products of 64 monomials", passed_products, 512, "branches", power=2)
chain("passed-searches", "branches that each pass another sum to as many searches through as many updates at sums of 64 terms",
      passed_searches, 256, "branches", power=3)
