"""Pass 5b: registers of the program and of its shared functions. A function gets its registers before its callers do:
what they keep across the call is in other registers, which pass through the function's code types."""
from .alloc import K, allocate
from .early import copy_early
from .ir import Block, Edge, Value
from .split import split
from .traps import FULL

MOST_FRAMES = 64


class Program:
    """All blocks. `pairs`: the pair of registers of each value; `start`: what is live where each block starts; `cells`:
    how many cells hold spilled values; `backs`: the pair of the return address of each shared function that calls
    others; `stack`: if there are recursive functions, the pairs that hold the number of frames and the next frame's
    first word."""

    def __init__(self, main, shared):
        self.main, self.shared, self.pairs, self.start, self.backs = main, shared, {}, {}, {}
        self.blocks_of = {None: split(main)}
        for s in shared:
            self.blocks_of[s] = split(s.graph)
        for s, blocks in self.blocks_of.items():
            for b in blocks:
                b.home = s
        self.calls = {s: sorted({b.term[1] for b in blocks if b.term[0] == "call"}, key=lambda c: c.func.index)
                      for s, blocks in self.blocks_of.items()}
        self.order, self.cells, self.stack, self.frame, self.most = self.callees_first(), 0, None, 0, 0
        self.blocks = [b for s in reversed(self.order) for b in self.blocks_of[s]]

    def callees_first(self):
        found, seen = [], set()

        def visit(s):
            seen.add(s)
            for c in self.calls[s]:
                if c not in seen:
                    visit(c)
            found.append(s)

        visit(None)
        return found

    def deepen(self):
        """Adds to the depth of each shared function's blocks the depth of its deepest call, since they run as often as
        that call."""
        deepest = dict.fromkeys(self.order, 0)
        for s in reversed(self.order):
            for b in self.blocks_of[s]:
                b.depth += deepest[s]
                if b.term[0] == "call":
                    deepest[b.term[1]] = max(deepest[b.term[1]], b.depth)

    def allocate(self, first_cell):
        self.deepen()
        for s in self.order:
            if s is not None and (self.calls[s] or s.circle):
                self.backs[s] = K - 1 - len(self.backs)
        self.recursive = [s for s in self.order if s is not None and s.circle]
        reserved = set(self.backs.values())
        if self.recursive:
            self.stack = (K - 1 - len(self.backs), K - 2 - len(self.backs))
            reserved |= set(self.stack)
        for s in self.order:
            self.prepare(s)
        for s in self.order:
            blocks = self.blocks_of[s]
            copy_early(blocks)
            inner = [b.term[3].to for b in blocks if b.term[0] == "call" and self.is_inner(s, b.term[1])]
            pairs, start, cells, framed = allocate(blocks, first_cell + self.cells, frozenset(reserved), inner)
            self.frame = max(self.frame, framed)
            self.pairs.update(pairs)
            self.start.update(start)
            self.cells += cells
            if s is not None:
                self.describe(s, pairs)
        self.keep()

    def take_cells(self, first, free):
        """Takes cells for frames and return addresses: as many frames as there is room for, at most MOST_FRAMES."""
        self.frame = max(self.frame, 1)
        self.most = min(MOST_FRAMES, free // (self.frame + len(self.recursive)))
        self.frames = first
        self.returns = {s: first + self.most * (self.frame + k) for k, s in enumerate(self.recursive)}
        for s in self.recursive:
            s.limit.b = self.most

    def prepare(self, s):
        """A shared function takes its return address as another parameter, or, if it calls other functions, in a
        register reserved for it."""
        if s is not None:
            s.back, s.pairs, s.used = None, {}, set()
            s.results = list(range(len(s.func.results) + len(s.given)))
            if s.circle:
                self.test_depth(s)
            if s not in self.backs:
                s.back = Value("return", block=s.graph.entry)
                s.graph.entry.params.append(s.back)

    @staticmethod
    def is_inner(s, callee):
        """Whether a function may call itself through this call."""
        return s is not None and s.func in callee.circle

    def test_depth(self, s):
        """A recursive function begins with a test that a frame is available."""
        entry, rest, trap = s.graph.entry, Block(note=f"{s.func.name} goes on"), Block()
        trap.term, trap.trap = ("jmp", Edge(trap)), (s.func.name, s.func.at, FULL)
        rest.insts, rest.term, depth = entry.insts, entry.term, Value("depth", block=entry)
        s.limit = Value("ltu", depth, 0, 1, entry)
        entry.insts, entry.term = [depth, s.limit], ("bz", s.limit, Edge(trap), Edge(rest))
        blocks = self.blocks_of[s]
        blocks[1:1] = [rest]
        blocks.append(trap)
        rest.home = trap.home = s
        self.blocks = [b for t in reversed(self.order) for b in self.blocks_of[t]]

    def describe(self, s, pairs):
        """What callers must know about a function: where its values are, and which registers it uses."""
        s.pairs = pairs
        ends = [b for b in self.blocks_of[s] if b.term[0] == "ret"]
        if ends and not s.circle:
            s.results = [pairs[p] for p in ends[0].term[2]]
        s.used |= set(pairs.values()) | set(s.results)
        for c in [*self.calls[s], *(c for c in self.recursive if c.func in s.circle)]:
            s.used |= c.used
        for c in self.recursive:        # functions in a cycle use what any of them uses
            if c.func in s.circle:
                c.used |= s.used

    def keep(self):
        """Finds the registers that pass through each shared function: those that its callers keep or pass on."""
        kept, changed = {s: set() for s in self.order}, True
        while changed:
            changed = False
            for s in reversed(self.order):
                for b in self.blocks_of[s]:
                    if b.term[0] == "call":
                        more = kept[s] | {self.pairs[v] for v in self.start[b.term[3].to]}
                        changed |= not more <= kept[b.term[1]]
                        kept[b.term[1]] |= more
        for s in self.shared:
            s.kept = sorted(kept.get(s, ()))

