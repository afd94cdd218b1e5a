"""Pass 5: assigns values to 31 register pairs by graph colouring. What does not fit is spilled."""
from .ir import Value
from .spill import Spiller, cells_of

K = 31    # pair 31 is the spare, for addresses


def has_register(v):
    return v.op not in ("ref", "st")


def last_uses(b):
    """What the end of a block itself uses. Before the blocks are split, the end of a function has no values."""
    op = b.term[0]
    if op == "bz":
        return [b.term[1]] if isinstance(b.term[1], Value) else []
    if len(b.term) < 3:
        return []
    return [x for x in [*b.term[2], b.term[1].back if op == "ret" else None] if isinstance(x, Value)]


def used(v):
    return [x for x in (v.a, v.b) if x.__class__ is Value and x.op != "ref"]


def needs_of(b):
    """The earlier values that a block uses, and the values that it makes."""
    needs = set(last_uses(b))
    for v in reversed(b.insts):
        needs.discard(v)
        needs.update(used(v))
    return needs, set(b.insts)


def liveness(blocks):
    """What is live at the start of each block, including the parameters that are used, and at its end, including what
    the moves read."""
    start = {b: set() for b in blocks}
    end = {b: set() for b in blocks}
    needs = {b: needs_of(b) for b in blocks}
    todo, changed = list(reversed(blocks)), True
    while changed:
        changed = False
        for b in todo:
            live = set()
            for e in b.edges():
                wanted = start[e.to]
                live |= wanted.difference(e.to.params)
                for p, x in zip(e.to.params, e.args):
                    if p in wanted and x.__class__ is Value:
                        live.add(x)
            end[b], (first, made) = live, needs[b]
            live = live - made | first
            if len(live) != len(start[b]):
                start[b] = live
                changed = True
    return start, end


def interference(blocks, start, end):
    adj = {}
    for b in blocks:
        live = set(end[b])
        live.update(last_uses(b))
        for v in live:
            adj.setdefault(v, set())
        for v in reversed(b.insts):
            if has_register(v):
                live.discard(v)
                mine = adj.setdefault(v, set())
                mine |= live
                for u in live:
                    adj[u].add(v)
            for u in used(v):
                adj.setdefault(u, set())
                live.add(u)
        params = [p for p in b.params if p in start[b]]
        for p in params:
            mine = adj.setdefault(p, set())
            others = live - {p}
            mine |= others
            for u in others:
                adj[u].add(p)
    return adj


def moves_of(blocks, start):
    moves = []
    for b in blocks:
        for e in b.edges():
            for p, x in zip(e.to.params, e.args):
                if p in start[e.to] and isinstance(x, Value) and x is not p:
                    moves.append((10 ** min(b.depth, 6), p, x))
        moves += [(10 ** min(b.depth, 6), v, v.a) for v in b.insts if v.op == "copy" and isinstance(v.a, Value)]
    return sorted(moves, key=lambda m: (-m[0], m[1].id, m[2].id))


class Colouring:
    def __init__(self, blocks, cannot_spill, banned):
        """`banned`: registers that no value in these blocks may have."""
        self.blocks, self.cannot = blocks, cannot_spill
        self.start, self.end = liveness(blocks)
        self.adj = interference(blocks, self.start, self.end)
        self.group = {v: v for v in self.adj}
        self.members = {v: [v] for v in self.adj}
        self.moves = moves_of(blocks, self.start)
        self.most = max((len(s) for s in self.start.values()), default=0)
        self.count = K - len(banned)
        self.taken = {v: set(banned) for v in self.adj}
        self.fixed = {}
        self.at_calls()

    def at_calls(self):
        """A value that lives across a call gets no register that the function uses; arguments and results get the
        function's own if possible."""
        for b in self.blocks:
            if b.term[0] == "call":
                shared = b.term[1]
                for v in self.start[b.term[3].to]:
                    self.taken[v] |= shared.used
                for p, x in zip(shared.graph.entry.params, b.term[2]):
                    if isinstance(x, Value) and p in shared.pairs:
                        self.fixed.setdefault(x, []).append(shared.pairs[p])
            if b.after:
                gets = [v for v in b.insts if v.op == "get"]
                for i, v in enumerate(gets):
                    self.fixed.setdefault(v, []).append(b.after.results[v.a])
                    self.taken[v] |= {b.after.results[later.a] for later in gets[i + 1:]}

    def of(self, v):
        while self.group[v] is not v:
            v = self.group[v]
        return v

    def coalesce(self):
        """Joins values that are copied to one another into one group, if the group still finds a register."""
        left, self.high = self.moves, {v for v, near in self.adj.items() if len(near) >= self.count}
        while True:
            kept = []
            for move in left:
                a, b = self.of(move[1]), self.of(move[2])
                if a is b or b in self.adj[a]:
                    continue
                if self.fits(a, b):
                    self.join(a, b)
                else:
                    kept.append(move)
            if len(kept) == len(left):
                return
            left = kept

    def fits(self, a, b):
        """Whether two groups, once joined, still find a register: by Briggs's rule or by George's."""
        adj, high, count = self.adj, self.high, self.count
        near_a, near_b = adj[a], adj[b]
        taken = len(self.taken[a] | self.taken[b])
        if taken > max(len(self.taken[a]), len(self.taken[b])) and len(near_a | near_b) + taken >= K:
            return False
        high_a, high_b = near_a & high, near_b & high
        heavy = len(high_a | high_b)
        if heavy < count or high_a <= near_b or high_b <= near_a:
            return True
        return heavy - sum(1 for n in high_a & high_b if len(adj[n]) == count) < count

    def join(self, a, b):
        """Group b becomes a part of group a."""
        adj, high = self.adj, self.high
        self.group[b] = a
        self.taken[a] = self.taken[a] | self.taken[b]
        self.members[a] += self.members.pop(b)
        mine = adj[a]
        for n in adj.pop(b):
            near = adj[n]
            near.discard(b)
            if a in near:
                if len(near) < self.count:
                    high.discard(n)
            else:
                near.add(a)
                mine.add(n)
        high.discard(b)
        if len(mine) >= self.count:
            high.add(a)

    def costs(self):
        cost = {}
        for b in self.blocks:
            weight = 10 ** min(b.depth, 6)
            for v in b.insts:
                if has_register(v) and v in self.group:
                    w = 0.5 if v.op == "const" else 1 if v.op == "idx" else 12
                    cost[self.of(v)] = cost.get(self.of(v), 0) + w * weight
                for u in used(v):
                    cost[self.of(u)] = cost.get(self.of(u), 0) + 4 * weight
            for u in last_uses(b):
                u = self.of(u)
                cost[u] = cost.get(u, 0) + 4 * weight
            for e in b.edges():
                for p, x in zip(e.to.params, e.args):
                    if p in self.group and (not isinstance(x, Value) or self.of(x) is not self.of(p)):
                        u = self.of(p)
                        cost[u] = cost.get(u, 0) + 12 * weight
        for v in self.cannot:
            if v in self.group:
                cost[self.of(v)] = float("inf")
        return cost

    def colour(self):
        """The colours of groups, and the groups that have none."""
        adj = self.adj
        degree = {v: len(n) + len(self.taken[v]) for v, n in adj.items()}
        cost = self.costs()
        rest = dict.fromkeys(sorted(adj, key=lambda v: v.id))
        low = [v for v in rest if degree[v] < K]
        stack = []
        while rest:
            if low:
                v = low.pop()
                if v not in rest:
                    continue
            else:
                v = min(rest, key=lambda v: (cost.get(v, 0) / (degree[v] or 1), v.id))
            del rest[v]
            stack.append(v)
            near = [n for n in adj[v] if n in rest]
            for n in near:
                degree[n] -= 1
            # Sorted, so that each run writes the same text.
            low += sorted((n for n in near if degree[n] == K - 1), key=lambda n: n.id)
        likes = {}
        for _, p, x in self.moves:
            a, b = self.of(p), self.of(x)
            likes.setdefault(a, []).append(b)
            likes.setdefault(b, []).append(a)
        colours, spilled = {}, []
        for v in reversed(stack):
            taken = {colours[n] for n in adj[v] if n in colours} | self.taken[v]
            free = [c for c in range(K) if c not in taken]
            if not free:
                spilled.append(v)
                continue
            liked = [colours[n] for n in likes.get(v, ()) if n in colours and colours[n] not in taken]
            liked += [c for member in self.members[v] for c in self.fixed.get(member, ()) if c not in taken]
            colours[v] = liked[0] if liked else free[0]
        return colours, spilled


def allocate(blocks, first_cell, banned=frozenset(), kept=()):
    """The pairs of all values, what is live where each block starts, and how many cells and words of a frame hold
    spilled values. `kept`: the blocks after calls that preserve no register: what lives across them is in the frame."""
    tiny, cells, framed = {v for v in blocks[0].params if v.op == "return"}, 0, 0
    if kept:
        start, _ = liveness(blocks)
        across = sorted({v for tail in kept for v in start[tail]}, key=lambda v: v.id)
        again = dict.fromkeys(v for v in across if v.op in ("const", "idx"))
        stay = [v for v in across if v not in again]
        framed = len(stay)
        Spiller({**again, **{v: ("frame", k) for k, v in enumerate(stay)}}, tiny).run(blocks)
    for _ in range(40):
        colouring = Colouring(blocks, tiny, banned)
        colouring.coalesce()
        colours, spilled = colouring.colour()
        if not spilled:
            return {v: colours[colouring.of(v)] for v in colouring.group}, colouring.start, cells, framed
        place, more = cells_of(colouring, spilled, first_cell + cells)
        Spiller(place, tiny).run(blocks)
        cells += more
    raise RuntimeError("spilling does not converge")
