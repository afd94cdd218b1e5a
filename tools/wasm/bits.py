"""Pass 3b: the bits that may be 1 and the bits that matter; removes unneeded masks."""
from .ir import Value
from .narrow import use_ranges
from .opt import clean, find, resolve
from .words import M32, M64, PURE, low_bit, ones_after, ones_of, smear

NONE = frozenset()


def readers_of(blocks):
    """For each value the blocks to visit again when more of its bits may be 1: those that use it, except its own, and
    those that take it as an argument."""
    home, readers = {v: b for b in blocks for v in b.insts}, {}
    for b in blocks:
        for v in b.insts:
            for x in (v.a, v.b):
                if x.__class__ is Value and home.get(x) is not b:
                    readers.setdefault(x, set()).add(b)
        for e in b.edges():
            for x in e.args:
                if x.__class__ is Value:
                    readers.setdefault(x, set()).add(e.to)
    return readers


def grown(p, i, ways, turn):
    """The bits of a parameter that may be 1. If they keep growing, all possible ones are added at once."""
    ones = p.ones
    for _, e in ways:
        ones |= ones_of(e.args[i])
    ones &= p.most
    if ones != p.ones and turn > 2:
        step = low_bit(ones)
        ones = smear(ones)
        ones = M32 if turn > 4 and ones <= M32 else M64 if turn > 4 else ones
        ones &= p.most & -step
    return ones


def known_ones(blocks, preds):
    """For each value the bits that may be 1: starts from none and adds more."""
    for b in blocks:
        for p in b.params:
            p.ones = 0 if preds[b] else p.full
        for v in b.insts:
            v.ones = 0 if v.op in PURE else v.full
    readers, waiting = readers_of(blocks), set(blocks)
    for turn in range(200):
        if not waiting:
            return
        for b in blocks:
            if b not in waiting:
                continue
            waiting.discard(b)
            for i, p in enumerate(b.params):
                ones = grown(p, i, preds[b], turn)
                if ones != p.ones:
                    p.ones = ones
                    waiting |= readers.get(p, NONE)
            for v in b.insts:
                if v.op in PURE:
                    ones = v.ones | ones_after(v.op, v.a, v.b)
                    if ones != v.ones:
                        v.ones = ones
                        waiting |= readers.get(v, NONE)
    for b in blocks:    # did not settle: nothing is known
        for v in b.params + b.insts:
            v.ones = M64


def asked(v, bits, length):
    """Which bits of the two operands matter if these bits of a value do."""
    op, word = v.op, v.b if isinstance(v.b, int) else None
    if op in ("add", "sub", "mul"):
        return smear(bits), smear(bits)
    if op == "and":
        return bits if word is None else bits & word, bits
    if op == "or":
        return bits if word is None else bits & ~word, bits
    if op == "xor":
        return bits, bits
    if op == "shl":
        return smear(bits) if word is None else bits >> word, M64
    if op == "shr":
        return M64 if word is None else (bits << word) & M64, M64
    if op == "idx" and length & (length - 1) == 0:
        return length - 1, 0
    return M64, M64


def demanded(blocks, preds, length):
    """For each value the bits that matter to what uses it."""
    need, todo = {}, []
    owner = {p: (b, i) for b in blocks for i, p in enumerate(b.params)}

    def ask(x, bits):
        if x.__class__ is Value:
            have = need.get(x, 0)
            if bits & ~have:
                need[x] = have | bits
                todo.append(x)

    for b in blocks:
        for v in b.insts:
            if v.op in ("st", "put"):
                ask(v.a, M64)
                ask(v.b, M64)
        if b.term[0] == "bz":
            ask(b.term[1], M64)
    while todo:
        v = todo.pop()
        if v.op == "param":
            b, i = owner[v]
            for _, e in preds[b]:
                ask(e.args[i], need[v])
        else:
            first, second = asked(v, need[v], length)
            ask(v.a, first)
            ask(v.b, second)
    return need


def drop_masks(blocks, preds, length):
    """Drops masks and sums that change only bits that do not matter, and simplifies a right shift of a left shift or
    of a sum where the bits that matter permit it."""
    need = demanded(blocks, preds, length)
    changed = False
    for b in blocks:
        for v in b.insts:
            if v.op == "and" and isinstance(v.b, int) and need.get(v, 0) & ~v.b == 0:
                v.repl, changed = find(v.a), True
            elif v.op == "add" and isinstance(v.b, int) and need.get(v, 0) and v.b & smear(need[v]) == 0:
                v.repl, changed = find(v.a), True
    resolve(blocks)
    if not changed:
        # (x << k) + c >> k is x + (c >> k), except for the k highest bits
        for b in blocks:
            insts = []
            for v in b.insts:
                if v.op == "shr" and isinstance(v.b, int) and need.get(v, 0) >> (64 - v.b) == 0:
                    k, s = v.b, v.a
                    if s.op == "shl" and s.b == k and isinstance(s.b, int):
                        v.repl, changed = find(s.a), True
                        continue
                    if s.op == "add" and isinstance(s.b, int) and s.b & ((1 << k) - 1) == 0:
                        inner = Value("shr", s.a, k)
                        insts.append(inner)
                        v.op, v.a, v.b, changed = "add", inner, s.b >> k, True
                    elif s.op == "add" and not isinstance(s.b, int):
                        for x, y in ((s.a, s.b), (s.b, s.a)):
                            if x.op == "shl" and isinstance(x.b, int) and x.b >= k:
                                high = x.a if x.b == k else Value("shl", x.a, x.b - k)
                                low = Value("shr", y, k)
                                insts += [low] + ([high] if x.b > k else [])
                                v.op, v.a, v.b, changed = "add", high, low, True
                                break
                insts.append(v)
            b.insts = insts
        resolve(blocks)
    return changed


def share_sums(blocks, preds, length):
    """Merges sums of a value with two constants that differ only in bits that do not matter."""
    need = demanded(blocks, preds, length)
    changed = False
    for b in blocks:
        sums = {}
        for v in b.insts:
            if v.op == "add" and isinstance(v.b, int):
                sums.setdefault(v.a, []).append(v)
        for some in sums.values():
            for v in some if len(some) > 1 else ():
                bits = smear(need.get(v, 0))
                like = next((w for w in some if w.b != v.b and not (w.b ^ v.b) & bits and need.get(w, 0) & ~bits), None)
                if like:
                    v.b, changed = like.b, True
    return changed


def optimise(g, length, rounds=12):
    """Folds, finds ranges, and drops masks, until nothing changes."""
    g.length = length
    blocks, preds = clean(g)
    for turn in range(rounds):
        known_ones(blocks, preds)
        if turn < 2:
            use_ranges(blocks, preds)
        blocks, preds = clean(g)
        changed = drop_masks(blocks, preds, length) or share_sums(blocks, preds, length)
        for b in blocks:
            for p in b.params:      # without their masks, words may have other bits
                p.most = M64
        if not changed and turn:
            return blocks
    known_ones(blocks, preds)
    return clean(g)[0]
