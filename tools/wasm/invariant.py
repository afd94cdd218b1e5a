"""Pass 4a: moves operations whose operands do not change in a loop ahead of it, if registers are left for them."""
from .alloc import liveness, used
from .ir import Value
from .loops import find_loops
from .opt import dominators
from .words import PURE

MOST_LIVE = 22      # operations are moved ahead of a loop until this many values are live in it at once


def most_live(loop, end):
    """How many values are live at once in a loop."""
    most = 0
    for b in loop.body:
        live = set(end[b])
        most = max(most, len(live))
        for v in reversed(b.insts):
            live.discard(v)
            live.update(used(v))
            most = max(most, len(live))
    return most


def hoist(loop, before, room):
    """Moves operations whose operands do not change in a loop to the block before it."""
    inside = {v for b in loop.body for v in [*b.params, *b.insts]}
    for b in sorted(loop.body, key=lambda b: b.id):
        kept = []
        for v in b.insts:
            if room and v.op in PURE and not any(isinstance(x, Value) and x in inside for x in (v.a, v.b)):
                before.insts.append(v)
                inside.discard(v)
                room -= 1
            else:
                kept.append(v)
        b.insts = kept


def hoist_all(blocks, preds):
    """Moves operations ahead of each loop, the inner ones first."""
    loops = find_loops(blocks, preds, dominators(blocks, preds))
    if not loops:
        return
    _, end = liveness(blocks)
    for loop in sorted(loops.values(), key=lambda loop: len(loop.body)):
        outside = [b for b, _ in preds[loop.head] if b not in loop.body]
        fits = not any(b.trap or any(v.op == "call" for v in b.insts) for b in loop.body)
        if fits and len(outside) == 1 and outside[0].term[0] == "jmp":
            hoist(loop, outside[0], max(0, MOST_LIVE - most_live(loop, end)))
