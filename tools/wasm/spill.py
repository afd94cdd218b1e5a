"""Pass 5a: keeps values without a register in cells `spill[k]`, or in the frame of a function that calls itself."""
from .ir import Value
from .opt import preds_of


def cells_of(colouring, groups, first_cell):
    """A cell for each group that is spilled, and how many cells that takes. Constants and addresses get none: they are
    computed again."""
    place, cell_of = {}, {}
    for g in groups:
        members = colouring.members[g]
        if all(v.op in ("const", "idx") for v in members):
            place.update(dict.fromkeys(members))
            continue
        taken = {cell_of[h] for h in cell_of if h in colouring.adj[g]}
        cell_of[g] = next(k for k in range(len(groups)) if k not in taken)
        place.update(dict.fromkeys(members, first_cell + cell_of[g]))
    return place, max(cell_of.values(), default=-1) + 1


class Spiller:
    """`place`: for each value that is spilled its cell, ("frame", word), or None if it is computed again; `tiny`:
    values so short-lived that they must not be spilled."""

    def __init__(self, place, tiny):
        self.place, self.tiny = place, tiny

    def run(self, blocks):
        for b in blocks:
            self.instructions(b, b is blocks[0])
            self.end(b)
        for b, ways in preds_of(blocks).items():
            kept = [i for i, p in enumerate(b.params) if p not in self.place]
            if b is not blocks[0] and len(kept) < len(b.params):
                b.params = [b.params[i] for i in kept]
                for _, e in ways:
                    e.args = [e.args[i] for i in kept]

    def at(self, v, insts, block):
        """The address of a value's cell."""
        where = self.place[v]
        if isinstance(where, int):
            return Value("ref", where)
        insts.append(Value("frame", where[1], block=block))
        self.tiny.add(insts[-1])
        return insts[-1]

    def fetch(self, v, insts, block):
        """A value for one use."""
        if not isinstance(v, Value) or v not in self.place:
            return v
        if self.place[v] is None:
            new = Value(v.op, v.a if v.op == "const" else self.fetch(v.a, insts, block), None, v.ones, block)
        else:
            new = Value("ld", self.at(v, insts, block), None, v.ones, block)
        self.tiny.add(new)
        insts.append(new)
        return new

    def keep(self, values, insts, block):
        for v in values:
            insts.append(Value("st", self.at(v, insts, block), v, block=block))
            self.tiny.add(v)

    def instructions(self, b, is_first):
        old, b.insts, waiting = b.insts, [], []
        if is_first:        # arguments come in registers
            self.keep([p for p in b.params if p in self.place], b.insts, b)
        for v in old:
            if v in self.place and self.place[v] is None:
                continue
            if waiting and v.op != "get":       # results are fetched and stored before anything else gets a register
                self.keep(waiting, b.insts, b)
                waiting = []
            v.a, v.b = self.fetch(v.a, b.insts, b), self.fetch(v.b, b.insts, b)
            b.insts.append(v)
            if v in self.place and v.op == "get":
                waiting.append(v)
            elif v in self.place:
                self.keep([v], b.insts, b)
        self.keep(waiting, b.insts, b)

    def end(self, b):
        """What the end of a block uses, and the arguments of its edges."""
        op = b.term[0]
        if op == "bz":
            b.term = ("bz", self.fetch(b.term[1], b.insts, b), *b.term[2:])
        elif op in ("call", "ret"):
            b.term[2][:] = [self.fetch(x, b.insts, b) for x in b.term[2]]
        for e in b.edges():
            stores = []
            for i, (p, x) in enumerate(zip(e.to.params, e.args)):
                if p not in self.place:
                    e.args[i] = self.fetch(x, b.insts, b)
                elif not isinstance(x, Value) or self.place.get(x) != self.place[p]:
                    if isinstance(x, int):
                        x = Value("const", x, block=b)
                        b.insts.append(x)
                        self.tiny.add(x)
                    x = self.fetch(x, b.insts, b)
                    stores.append(Value("st", self.at(p, stores, b), x, block=b))
            b.insts += stores
