"""Pass 4c: copies what one iteration passes to the next before the branch back, so that the branch leads directly to the
loop's head, and not to a block of copies that jumps there."""
from .alloc import liveness
from .ir import Value
from .words import ones_of


def ordered(pairs):
    """Pairs of a parameter and its argument, in an order in which no parameter is overwritten before it is read; None
    if they form a cycle."""
    out, left = [], list(pairs)
    while left:
        taken = [x for _, x in left]
        free = [(p, x) for p, x in left if not any(p is y for y in taken)]
        if not free:
            return None
        out += free
        left = [(p, x) for p, x in left if all(p is not q for q, _ in free)]
    return out


def meet(p, x, b, start):
    """Whether a parameter is still needed when its next word exists, so that the two need different registers."""
    if isinstance(x, int):
        return True
    if x not in b.insts:
        return p in start[b]
    later = b.insts[b.insts.index(x) + 1:]
    return any(p is v.a or p is v.b for v in later) or p is b.term[1]


def copied(b, mid, start, other):
    """Puts copies into a block for what an edge passes on, if the old words are not used on the block's other edge."""
    edge = mid.term[1]
    pairs = [(p, x) for p, x in zip(edge.to.params, edge.args) if p in start[edge.to] and p is not x]
    if any(p in start[other.to] for p, _ in pairs):
        return
    pairs = ordered([(p, x) for p, x in pairs if meet(p, x, b, start)])
    if not pairs:
        return
    given = {}
    for p, x in pairs:
        given[p] = Value("copy", x, None, ones_of(x), b)
        b.insts.append(given[p])
    edge.args = [given.get(p, x) for p, x in zip(edge.to.params, edge.args)]


def copy_early(blocks):
    """Makes the early copies for each branch that ends an iteration."""
    start, _ = liveness(blocks)
    number = {b: i for i, b in enumerate(blocks)}
    for b in blocks:
        if b.term[0] != "bz":
            continue
        back = [e for e in b.term[2:4] if e.to.term[0] == "jmp" and not e.to.insts and not e.to.params
                and number[e.to.term[1].to] <= number[b] and e.to.term[1].to.depth <= b.depth]
        if len(back) == 1:
            copied(b, back[0].to, start, b.term[3 if back[0] is b.term[2] else 2])
