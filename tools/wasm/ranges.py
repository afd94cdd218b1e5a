"""Pass 3c: the range of each value, from loop counters, masks and tests. Removes tests that cannot fail, and masks that
clear nothing. A range holds in the block where it was found: tests on the way to it are known there."""
from .loops import FULL, TOPS, Counters, describe, find_loops
from .opt import dominators
from .words import M32, M64, PURE, smear

def after(op, a, b):
    """The range of an operation on words of two ranges."""
    (a0, a1), (b0, b1) = a, b
    if op == "add":
        if a1 + b1 <= M64:
            return a0 + b0, a1 + b1
        if a0 + b0 > M64:
            return a0 + b0 - M64 - 1, a1 + b1 - M64 - 1
    elif op == "sub":
        if a0 >= b1:
            return a0 - b1, a1 - b0
    elif op == "mul":
        if a1 * b1 <= M64:
            return a0 * b0, a1 * b1
    elif op == "and":
        k = b1.bit_length()
        if b0 == b1 == (1 << k) - 1 and a0 >> k == a1 >> k:
            return a0 & b1, a1 & b1
        return 0, min(a1, b1)
    elif op == "or":
        return max(a0, b0), smear(a1 | b1)
    elif op == "xor":
        if b0 == b1 and b0 in TOPS and (a1 < b0 or a0 >= b0 and a1 <= TOPS[b0]):
            return a0 ^ b0, a1 ^ b0
        return 0, smear(a1 | b1)
    elif op == "shl":
        if b1 < 64 and a1 << b1 <= M64:
            return a0 << b0, a1 << b1
    elif op == "shr":
        return a0 >> min(b1, 64), a1 >> min(b0, 64)
    elif op == "ltu":
        return int(a1 < b0), int(a0 < b1)
    elif op == "eq":
        return int(a0 == a1 == b0 == b1), int(a0 <= b1 and b0 <= a1)
    return FULL


class Ranges(Counters):
    def __init__(self, blocks, preds):
        self.blocks, self.preds = blocks, preds
        self.idom = dominators(blocks, preds)
        self.under = {b: [] for b in blocks}
        for b in blocks[1:]:
            self.under[self.idom[b]].append(b)
        self.loops = find_loops(blocks, preds, self.idom)
        self.tested = {}
        for loop in self.loops.values():
            describe(loop, self.idom)
            self.tested.update(dict.fromkeys(loop.tests, loop))
        self.range, self.facts, self.at_edge = {}, {}, {}
        self.grown = {}

    # What is known here
    def of(self, x):
        if isinstance(x, int):
            return x, x
        known = self.facts.get(x) or self.range.get(x)
        return known if known is not None else (0, smear(x.ones))

    def learn(self, x, low, high, undo, depth=4):
        """Learns that x is between low and high here, which bounds what x is computed from."""
        if isinstance(x, int):
            return
        l, h = self.of(x)
        low, high = max(low, l), min(high, h)
        if low > high or (low, high) == (l, h):
            return
        undo.append((x, self.facts.get(x)))
        self.facts[x] = (low, high)
        if depth == 0 or not isinstance(x.b, int):
            return
        self.learn_part(x, low, high, undo, depth - 1)

    def learn_part(self, x, low, high, undo, depth):
        c, (l, h) = x.b, self.of(x.a)
        if x.op == "add":
            low, high = (low - c) & M64, (high - c) & M64
            if low <= high:
                self.learn(x.a, low, high, undo, depth)
        elif x.op == "and":
            if c & (c + 1) == 0 and h <= c:
                self.learn(x.a, low, high, undo, depth)
        elif x.op == "xor" and c in TOPS and h <= TOPS[c]:
            if low >= c or high < c:
                self.learn(x.a, low ^ c, high ^ c, undo, depth)
        elif x.op == "shl" and c < 64 and h << c <= M64:
            self.learn(x.a, -(-low >> c), high >> c, undo, depth)
        elif x.op == "shr" and c < 64:
            self.learn(x.a, low << c, (high << c) + (1 << c) - 1, undo, depth)
        elif x.op == "mul" and c and h * c <= M64:
            self.learn(x.a, -(-low // c), high // c, undo, depth)

    def assume(self, cond, holds, undo):
        """Assumes that the word of a test is not 0 here (`holds`), or that it is 0."""
        if isinstance(cond, int):
            return
        if not holds:
            self.learn(cond, 0, 0, undo)
        else:
            self.learn(cond, 1, M64, undo)
        if cond.op == "ltu":
            a, b = cond.a, cond.b
            (a0, a1), (b0, b1) = self.of(a), self.of(b)
            if holds and b1:
                self.learn(a, a0, b1 - 1, undo)
                self.learn(b, a0 + 1, b1, undo)
            elif not holds:
                self.learn(a, b0, a1, undo)
                self.learn(b, b0, a1, undo)
        elif cond.op in ("eq", "xor", "sub"):
            self.assume_equal(cond.a, cond.b, holds == (cond.op == "eq"), undo)

    def assume_equal(self, a, b, equal, undo):
        (a0, a1), (b0, b1) = self.of(a), self.of(b)
        if equal:
            self.learn(a, b0, b1, undo)
            self.learn(b, a0, a1, undo)
        elif b0 == b1:
            if a0 == b0:
                self.learn(a, a0 + 1, a1, undo)
            elif a1 == b0:
                self.learn(a, a0, a1 - 1, undo)

    # The walk of the dominator tree
    def param_range(self, b, i, p, widen):
        loop = self.loops.get(b)
        counted = self.counts(loop, p, self.turns(loop)) if loop and p in loop.steps else None
        ranges = [self.at_edge[e][i] for _, e in self.preds[b] if e in self.at_edge]
        low, high = (min(r[0] for r in ranges), max(r[1] for r in ranges)) if ranges else FULL
        old = self.range.get(p)
        if widen and old is not None and loop:
            low = old[0] if low >= old[0] else 0
            high = old[1] if high <= old[1] else M32 if high <= M32 else M64
        high = min(high, smear(p.ones))
        for known in (counted, loop.own.get(p) if loop else None):
            if known:
                low, high = max(low, known[0]), min(high, known[1])
        return low, high

    def walk(self, widen, visit=None):
        todo, changed = [(self.blocks[0], None)], False
        while todo:
            b, undo = todo.pop()
            if undo is not None:
                for x, old in reversed(undo):
                    if old is None:
                        del self.facts[x]
                    else:
                        self.facts[x] = old
                continue
            undo = []
            self.enter(b, undo)
            for i, p in enumerate(b.params):
                new = self.param_range(b, i, p, widen)
                if self.range.get(p) != new:
                    self.range[p], changed = new, True
            for v in b.insts:
                if v.op in PURE:
                    low, high = after(v.op, self.of(v.a), self.of(v.b))
                    self.range[v] = (low, min(high, smear(v.ones)))
            if visit:
                visit(b)
            self.leave(b)
            todo.append((b, undo))
            todo += [(x, None) for x in reversed(self.under[b])]
        return changed

    def enter(self, b, undo):
        """Learns what follows from the test on the only way into a block."""
        if len(self.preds[b]) == 1:
            before, edge = self.preds[b][0]
            if before.term[0] == "bz":
                self.take(edge, edge is before.term[3], before.term[1], undo)

    def leave(self, b):
        """The ranges of the arguments of each edge, given its test."""
        for e in b.edges():
            if not e.args:
                continue
            undo = []
            if b.term[0] == "bz":
                self.take(e, e is b.term[3], b.term[1], undo)
            self.at_edge[e] = [self.of(x) for x in e.args]
            for x, old in reversed(undo):
                if old is None:
                    del self.facts[x]
                else:
                    self.facts[x] = old

    def settle(self):
        """Widens the ranges from a first guess until nothing grows, and narrows them once."""
        if not self.loops:
            self.walk(False)
            return True
        for turn in range(12):
            if not self.walk(turn >= 1):
                self.walk(False)
                return True
        return False
