"""Pass 4b: calls of shared functions end their blocks. What follows a call is a separate block, to which the function
returns; what is live there stays in its registers, which the function leaves alone."""
from .ir import Block, Edge, Value
from .opt import order


def split(g):
    """The blocks of a graph, cut after each call."""
    for b in order(g):
        insts, b.insts, at, args = b.insts, [], b, []
        for v in insts:
            if v.op == "put":
                args.append(v.a)
            elif v.op == "call":
                tail = Block(b.depth, f"after a call of {v.sub.func.name}")
                tail.after, tail.term, args, at.term = v.sub, at.term, [], ("call", v.sub, args, Edge(tail))
                at = tail
            else:
                at.insts.append(v)
        if at.term[0] == "ret":
            out = Block(b.depth)
            out.params = [Value("param", block=out) for _ in args]
            out.term = ("ret", at.term[1], list(out.params))
            at.term = ("jmp", Edge(out, args))
    blocks = order(g)
    for b in blocks:
        again(b)
    return blocks


def again(b):
    """Computes an indexed cell's address again in each block that uses it: it must not live across a call."""
    made, insts = {v: v for v in b.insts if v.op == "idx"}, []
    for v in b.insts:
        for side in ("a", "b"):
            x = getattr(v, side)
            if isinstance(x, Value) and x.op == "idx":
                if x not in made:
                    made[x] = Value("idx", x.a, None, x.ones, b)
                    insts.append(made[x])
                setattr(v, side, made[x])
        insts.append(v)
    b.insts = insts
