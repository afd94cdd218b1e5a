"""Pass 3a: folds the graph until nothing changes: parameters with a single value, dead values, blocks that only
jump."""
from .ir import Value
from .words import PURE


def find(x):
    while not isinstance(x, int) and x.repl is not None:
        nxt = x.repl
        if not isinstance(nxt, int) and nxt.repl is not None:
            x.repl = nxt.repl
        x = nxt
    return x


def order(g):
    """The reachable blocks, in reverse postorder."""
    seen, out, todo = set(), [], [(g.entry, 0)]
    seen.add(g.entry)
    while todo:
        block, i = todo.pop()
        edges = block.edges()
        if i < len(edges):
            todo.append((block, i + 1))
            to = edges[len(edges) - 1 - i].to
            if to not in seen:
                seen.add(to)
                todo.append((to, 0))
        else:
            out.append(block)
    return out[::-1]


def preds_of(blocks):
    preds = {b: [] for b in blocks}
    for b in blocks:
        for e in b.edges():
            preds[e.to].append((b, e))
    return preds


def resolve(blocks):
    """Replaces each use of a replaced value by its replacement."""
    for b in blocks:
        for v in b.insts:
            a, w = v.a, v.b
            if a.__class__ is Value and a.repl is not None:
                v.a = find(a)
            if w.__class__ is Value and w.repl is not None:
                v.b = find(w)
        if b.term[0] == "bz":
            b.term = ("bz", find(b.term[1]), *b.term[2:])
        for e in b.edges():
            e.args = [x if x.__class__ is int or x.repl is None else find(x) for x in e.args]


def fold_branches(blocks):
    changed = False
    for b in blocks:
        if b.term[0] == "bz":
            cond, zero, other = b.term[1:]
            if isinstance(cond, int):
                b.term = ("jmp", other if cond else zero)
                changed = True
            elif zero.to is other.to and same_args(zero, other):
                b.term = ("jmp", zero)
                changed = True
            elif cond.op == "eq" and cond.b == 0:
                b.term = ("bz", cond.a, other, zero)
                changed = True
    return changed


def same_args(e, f):
    return all(x is y or (isinstance(x, int) and x == y) for x, y in zip(e.args, f.args))


def simple_params(blocks, preds):
    changed = True
    any_change = False
    while changed:
        changed = False
        for b in blocks:
            if not b.params or not preds[b]:
                continue
            keep = []
            for i, p in enumerate(b.params):
                only, fits = None, True
                for _, e in preds[b]:
                    x = e.args[i]
                    if x.__class__ is Value and x.repl is not None:
                        x = find(x)
                    if x is p:
                        continue
                    if only is None:
                        only = x
                    elif not (x is only or (isinstance(x, int) and isinstance(only, int) and x == only)):
                        fits = False
                        break
                if fits and only is not None:
                    p.repl = only
                    changed = any_change = True
                else:
                    keep.append(i)
            if len(keep) < len(b.params):
                b.params = [b.params[i] for i in keep]
                for _, e in preds[b]:
                    e.args = [e.args[i] for i in keep]
    return any_change


def merge_blocks(blocks, preds):
    """Merges a block into the only block that leads to it, by a jump; removes blocks that only jump."""
    gone = set()
    for b in blocks:
        while b not in gone and b.term[0] == "jmp":
            to = b.term[1].to
            if to is b or len(preds[to]) != 1 or to in gone:
                break
            for p, x in zip(to.params, b.term[1].args):
                p.repl = find(x)
            b.insts += to.insts
            b.depth = min(b.depth, to.depth)
            b.term = to.term
            gone.add(to)
            for e in b.edges():
                preds[e.to] = [(b if q is to else q, f) for q, f in preds[e.to]]
    if gone:
        blocks = [b for b in blocks if b not in gone]
        resolve(blocks)
    uses = used_elsewhere(blocks)
    return bool([e for b in blocks for e in b.edges() if pass_by(e, uses)] or gone)


def used_elsewhere(blocks):
    """The values that are used, except by blocks that only jump and pass on their own parameters."""
    uses = set()
    for b in blocks:
        for v in b.insts:
            uses.update((v.a, v.b))
        if b.term[0] == "bz":
            uses.add(b.term[1])
        only_jumps = not b.insts and b.term[0] == "jmp"
        uses.update(x for e in b.edges() for x in e.args if not only_jumps or x not in b.params)
    return uses


def pass_by(e, uses):
    """Redirects an edge to a block that only jumps to that block's target."""
    seen = set()
    while True:
        mid = e.to
        if mid.insts or mid.term[0] != "jmp" or mid.term[1].to is mid or mid in seen:
            return bool(seen)
        if any(p in uses for p in mid.params):
            return bool(seen)
        seen.add(mid)
        put = dict(zip(mid.params, e.args))
        e.args = [put.get(x, x) for x in mid.term[1].args]
        e.to = mid.term[1].to


def dominators(blocks, preds):
    number = {b: i for i, b in enumerate(blocks)}
    idom = {blocks[0]: blocks[0]}
    changed = True
    while changed:
        changed = False
        for b in blocks[1:]:
            new = None
            for p, _ in preds[b]:
                if p in idom:
                    if new is None:
                        new = p
                    else:
                        x, y = p, new
                        while x is not y:
                            while number[x] > number[y]:
                                x = idom[x]
                            while number[y] > number[x]:
                                y = idom[y]
                        new = x
            if idom.get(b) is not new:
                idom[b] = new
                changed = True
    return idom


def rebuild(g, blocks, preds):
    """Remakes each operation, reusing what its dominators compute: one table serves the walk of the dominator tree."""
    idom = dominators(blocks, preds)
    under = {b: [] for b in blocks}
    for b in blocks[1:]:
        under[idom[b]].append(b)
    table, todo = {}, [(blocks[0], None)]
    while todo:
        b, added = todo.pop()
        if added is not None:
            for key in added:
                table.pop(key, None)
            continue
        g.added = []
        known = idom[b].known if len(preds[b]) == 1 and preds[b][0][0] is idom[b] and idom[b] is not b else {}
        b.cse, b.known = table, {k: v for k, v in known.items() if k.op == "ref"}
        rebuild_block(g, b)
        for key in [k for k in g.added if k[0] == "idx"]:
            table.pop(key, None)     # an address is cheap to compute again, and costly to keep
        todo.append((b, g.added))
        todo += [(x, None) for x in reversed(under[b])]
    resolve(blocks)


def rebuild_block(g, b):
    old, b.insts = b.insts, []
    g.at, mk = b, g.mk
    for v in old:
        op, a, w = v.op, v.a, v.b
        if op in PURE:
            if not isinstance(a, int) and a.repl is not None:
                a = find(a)
            if not isinstance(w, int) and w.repl is not None:
                w = find(w)
            new = v.repl = mk(op, a, w)
            if not isinstance(new, int) and new.op != "param":
                new.ones &= v.ones
        elif op in ("ref", "idx"):
            v.repl = g.keyed("ref", a) if op == "ref" else g.address(find(a), g.length)
        elif op == "ld":
            v.repl = g.load(find(a))
        elif op == "st":
            g.store(find(a), find(w))
        else:
            if op == "call":
                b.known.clear()
            b.insts.append(v)


def sweep(blocks, preds):
    """Removes dead values and parameters."""
    live, todo = set(), []

    def use(x):
        if x.__class__ is Value and x not in live:
            live.add(x)
            todo.append(x)

    owner = {p: (b, i) for b in blocks for i, p in enumerate(b.params)}
    for b in blocks:
        for v in b.insts:
            if v.op in ("st", "put", "call"):
                live.add(v)
                use(v.a)
                use(v.b)
        if b.term[0] == "bz":
            use(b.term[1])
    while todo:
        v = todo.pop()
        if v.op == "param":
            b, i = owner.get(v, (None, 0))
            for _, e in preds.get(b, ()):
                use(e.args[i])
        else:
            use(v.a)
            use(v.b)
    for b in blocks:
        b.insts = [v for v in b.insts if v in live]
        if not preds[b]:
            continue
        keep = [i for i, p in enumerate(b.params) if p in live]
        if len(keep) < len(b.params):
            b.params = [b.params[i] for i in keep]
            for _, e in preds[b]:
                e.args = [e.args[i] for i in keep]


def clean(g):
    """Cleans the graph again and again, until little changes."""
    for _ in range(50):
        blocks = order(g)
        preds = preds_of(blocks)
        changed = simple_params(blocks, preds)
        if changed:
            resolve(blocks)
        if fold_branches(blocks):
            changed, blocks = True, order(g)
            preds = preds_of(blocks)
        if merge_blocks(blocks, preds):
            changed, blocks = True, order(g)
            preds = preds_of(blocks)
        before = sum(len(b.insts) for b in blocks)
        rebuild(g, blocks, preds)
        if fold_branches(blocks):
            changed, blocks = True, order(g)
            preds = preds_of(blocks)
        sweep(blocks, preds)
        if not changed or before - sum(len(b.insts) for b in blocks) <= before // 100:
            break
    return blocks, preds
