"""Pass 6b: constants that are used often keep registers of their own: some in the whole program, and others in a loop,
where they are set on entry."""
from .alloc import K
from .ir import Value
from .loops import find_loops
from .opt import dominators, preds_of


def taken(program, body):
    """The pairs that hold a value somewhere in a loop, or get one where it is left. A block that the layout put on an edge
    has no values of its own: what is live there is an argument of the edge, or live at its end."""
    pairs, found = program.pairs, set()
    for b in body:
        values = [*b.params, *b.insts, *program.start.get(b, ())]
        for e in b.edges():
            values += [*e.to.params, *(x for x in e.args if isinstance(x, Value))]
        found.update(pairs[v] for v in values if v in pairs)
        if b.home:
            found.update(b.home.kept)
    return found | {*program.backs.values(), *(program.stack or ())}


def loops_of(program):
    """The loops that may keep constants, the outer ones first: those without traps and calls."""
    found = []
    for blocks in program.blocks_of.values():
        preds = preds_of(blocks)
        loops = find_loops(blocks, preds, dominators(blocks, preds))
        found += [loop for loop in loops.values()
                  if not any(b.trap or b.after or b.term[0] in ("call", "ret") for b in loop.body)]
    return sorted(found, key=lambda loop: (-len(loop.body), loop.head.id))


def scopes_of(emitter, pins, most):
    """For each block the constants that its loops keep, each with its pair; `pins` are those of the whole program."""
    program, uses, scopes = emitter.program, {}, {}
    for (block, pin), n in emitter.uses.items():
        uses.setdefault(block, {})[pin] = n
    kept = set(emitter.free()[:len(pins)])
    for loop in loops_of(program):
        outer, wanted = scopes.get(loop.head, {}), {}
        for b in sorted(loop.body, key=lambda b: b.id):     # in order, so that each run writes the same text
            for pin, n in uses.get(b, {}).items():
                wanted[pin] = wanted.get(pin, 0) + n
        free = sorted(set(range(K)) - taken(program, loop.body) - kept - set(outer.values()))
        best = sorted((pin for pin in wanted if pin not in pins and pin not in outer
                       and wanted[pin] >= 10 ** min(loop.head.depth, 6)), key=lambda pin: -wanted[pin])
        more = dict(zip(best[:most], free))
        for b in loop.body if more else ():
            scopes[b] = {**scopes.get(b, {}), **more}
    return scopes


def choose(emitter, most):
    """The constants to keep, chosen after an emitter has run without any: at most `most` for the whole program, and at
    most twice as many for each loop."""
    total = {}
    for (_, pin), n in emitter.uses.items():
        total[pin] = total.get(pin, 0) + n
    best = sorted((pin for pin, n in total.items() if n >= 10), key=lambda pin: -total[pin])
    pins = best[:min(most, len(emitter.free()))]
    return pins, scopes_of(emitter, pins, 2 * most)
