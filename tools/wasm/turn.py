"""Pass 6a: repeats a loop's test where it jumps back, so that an iteration needs no jump besides its branch."""
from .ir import Value

MOST_TESTED = 10    # how many values a repeated test may have


def counted_uses(blocks):
    uses = {}
    for b in blocks:
        words = [x for v in b.insts for x in (v.a, v.b)] + ([b.term[1]] if b.term[0] == "bz" else [])
        for x in words + [x for e in b.edges() for x in e.args]:
            if isinstance(x, Value):
                uses[x] = uses.get(x, 0) + 1
    return uses


def loops_to_turn(blocks, skip):
    """Short loop heads, each with the block after it in the loop. `skip` skips blocks that only jump."""
    number = {b: i for i, b in enumerate(blocks)}
    uses, found = counted_uses(blocks), {}
    for b in blocks:
        for e in b.edges() if b.term[0] == "jmp" else ():
            head = e.to
            if number[head] > number[b] or head.term[0] != "bz" or len(head.insts) > MOST_TESTED or head.depth == 0:
                continue
            _, cond, zero, other = head.term
            inside = [x.to for x in (zero, other) if x.to.depth >= head.depth and skip(x.to) is x.to]
            turns = cond.op in ("eq", "xor", "sub") and uses[cond] == 1 and cond in head.insts
            if len(inside) == 1 and inside[0] is not head and (inside[0] is zero.to or turns):
                found[head] = inside[0]
    return found
