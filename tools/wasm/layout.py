"""Pass 4: chooses which side of a branch follows without a jump, inverts tests where that helps, puts words into
registers where an instruction takes no word, and turns edges with moves into blocks."""
from .invariant import hoist_all
from .ir import Block, Edge, Value
from .opt import dominators, order, preds_of, sweep


def turned(block, cond):
    """A value that is 0 exactly if cond is not 0."""
    if cond.op == "eq":
        new = Value("xor", cond.a, cond.b, block=block)
    elif cond.op in ("xor", "sub"):
        new = Value("eq", cond.a, cond.b, 1, block)
    else:
        new = Value("eq", cond, 0, 1, block)
    block.insts.append(new)
    return new


def depths(blocks, preds):
    """How many loops each block is in: a loop's blocks reach a jump back to its head without passing the head."""
    idom = dominators(blocks, preds)
    loops, number = {}, {b: i for i, b in enumerate(blocks)}
    for b in blocks:
        b.depth = 0
        for e in b.edges():
            if number[e.to] > number[b]:
                continue
            up = b
            while up is not e.to and idom[up] is not up:
                up = idom[up]
            if up is e.to:
                body = loops.setdefault(e.to, {e.to})
                todo = [b]
                while todo:
                    x = todo.pop()
                    if x not in body:
                        body.add(x)
                        todo += [p for p, _ in preds[x]]
    for body in loops.values():
        for b in body:
            b.depth += 1


def place(g):
    blocks = order(g)
    preds = preds_of(blocks)
    depths(blocks, preds)
    for b in blocks:
        if b.term[0] != "bz":
            continue
        _, cond, zero, other = b.term
        one_zero, one_other = len(preds[zero.to]) == 1, len(preds[other.to]) == 1
        if not one_other and (one_zero or other.to.depth > zero.to.depth):
            b.term = ("bz", turned(b, cond), other, zero)
    sweep(blocks, preds)
    hoist_all(blocks, preds)
    for b in blocks:
        insts = []
        for v in b.insts:
            if v.op not in ("const", "ref", "idx", "ld", "put", "get") and isinstance(v.a, int):
                v.a = Value("const", v.a, block=b)
                insts.append(v.a)
            if v.op == "st" and isinstance(v.b, int):
                v.b = Value("const", v.b, block=b)
                insts.append(v.b)
            insts.append(v)
        b.insts = insts
    for b in list(blocks):
        if b.term[0] != "bz":
            continue
        for e in b.term[2:4]:
            if len(preds[e.to]) > 1 or e.args:
                mid = Block(min(b.depth, e.to.depth), "edge")
                mid.term = ("jmp", Edge(e.to, e.args))
                e.to, e.args = mid, []
    return order(g)
