"""Pass 3d: uses ranges to remove tests that cannot fail and masks that clear nothing, and to make tests unsigned."""
from .loops import TOPS
from .opt import find, resolve
from .ranges import Ranges
from .words import M64, PURE, smear


def turned_down(v, of):
    """v, a test of signed words, as a test of unsigned words if the signs are equal; or a constant test; or None."""
    a, b = v.a, v.b
    sides = []
    top = next((x.b for x in (a, b) if not isinstance(x, int) and x.op == "xor" and x.b in TOPS), None)
    if top is None:
        return None
    for x in (a, b):
        if isinstance(x, int):
            sides.append((x ^ top, (x ^ top, x ^ top)))
        elif x.op == "xor" and x.b == top:
            sides.append((x.a, of(x.a)))
        else:
            return None
    (x, (x0, x1)), (y, (y0, y1)) = sides
    if max(x1, y1) > TOPS[top]:
        return None
    if x1 < top and y1 < top or x0 >= top and y0 >= top:
        return x, y
    return (0, 0) if x1 < top <= y0 else (0, 1) if y1 < top <= x0 else None


def less_round(v, of):
    """Replaces a sum that always wraps around its width once, like that of a number and -1, by one that does not."""
    s, mask = v.a, v.b
    if isinstance(s, int) or s.op != "add" or not isinstance(s.b, int):
        return False
    if not isinstance(mask, int) or mask & (mask + 1):
        return False
    low, high = of(s)
    k = mask.bit_length()
    if low >> k != high >> k:
        return False
    v.op, v.a, v.b = "add", s.a, (s.b - (low >> k << k)) & M64
    return True


def rewrite(ranges, b):
    """Uses what is known in a block: returns whether anything changed."""
    changed, of = False, ranges.of
    for v in b.insts:
        if v.op not in PURE:
            continue
        low, high = ranges.range[v]
        if low == high:
            v.repl, changed = low, True
        elif v.op == "and" and isinstance(v.b, int) and smear(of(v.a)[1]) & ~v.b == 0:
            v.repl, changed = find(v.a), True
        elif v.op == "and" and less_round(v, of):
            changed = True
        elif v.op == "add" and isinstance(v.b, int) and M64 + 1 - v.b in TOPS and not isinstance(v.a, int):
            x = v.a
            if x.op == "xor" and x.b == M64 + 1 - v.b and of(x.a)[1] < x.b:
                v.repl, changed = find(x.a), True
        elif v.op == "ltu":
            sides = turned_down(v, of)
            if sides:
                (v.a, v.b), changed = sides, True
    if b.term[0] == "bz" and not isinstance(b.term[1], int):
        low, high = of(b.term[1])
        if low or not high:
            b.term, changed = ("bz", int(low > 0), *b.term[2:]), True
    return changed


def use_ranges(blocks, preds):
    """Finds the ranges, and uses them. A parameter keeps the bits of its largest word."""
    ranges, changed = Ranges(blocks, preds), []
    if not ranges.settle():
        return False
    ranges.walk(False, lambda b: changed.append(rewrite(ranges, b)))
    for b in blocks:
        for p in b.params:
            p.most = min(p.most, smear(ranges.range[p][1]))
    resolve(blocks)
    return any(changed)
