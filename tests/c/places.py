#!/usr/bin/env -S python3 -B
"""Runs tools/cc with a test of where values are kept: `places.py WORDS..`, with the arguments of tools/cc.

The graph before register allocation says which value each use means. The graph after it says from which place the use
reads. This test follows all values through registers, spill cells, frames and copies, along every path at once, and
fails if a place need not hold the value that is meant. It knows nothing about colours, groups and costs. emitted.py
follows the emitted code.

A state has, for each place, the names of its content: a value of the first graph, ("word", w), ("index", name) for the
address of a cell by an index, or ("result", i) of the last call. Where paths meet, a place has the names that it has on
all of them."""
import os
import runpy
import sys

here = os.path.dirname(os.path.abspath(__file__))
tools = os.path.join(here, "..", "..", "tools")
sys.path.insert(0, tools)
if __name__ == "__main__":
    # The modules below take the tool's name from here.
    sys.argv[0] = os.path.join(tools, "cc")

from common import Refused              # noqa: E402
from emitted import follow              # noqa: E402
from wasm import subroutines, translate # noqa: E402
from wasm.ir import Value               # noqa: E402

WITHOUT_RESULT = "st", "ref"


def mentions(name, values):
    """Whether a name is that of one of these values, or of an address indexed by one."""
    return (name[1] if isinstance(name, tuple) and name[0] == "index" else name) in values


class Before:
    """The blocks of a function as they were before its values had registers."""

    def __init__(self, blocks):
        self.insts = {b: [(v, v.op, v.a, v.b) for v in b.insts] for b in blocks}
        self.params = {b: list(b.params) for b in blocks}
        self.args = {b: [list(e.args) for e in b.edges()] for b in blocks}
        self.ends = {b: list(b.term[2]) if b.term[0] in ("call", "ret") else b.term[1] if b.term[0] == "bz" else None
                     for b in blocks}
        self.index = {v: a for rows in self.insts.values() for v, op, a, _ in rows if op == "idx"}

    def name(self, x):
        """The name of an operand."""
        if isinstance(x, int):
            return "word", x
        if x.op in ("const", "ref"):
            return "word" if x.op == "const" else "ref", x.a
        return ("index", self.name(self.index[x])) if x.op == "idx" else x


class Places:
    """Follows the values of one function."""

    def __init__(self, function, before, blocks, pairs, start):
        self.function, self.before, self.blocks, self.pairs, self.start = function, before, blocks, pairs, start
        self.entering, self.state, self.cells = {}, {}, set()

    def wrong(self, block, what):
        where = self.function.func.name if self.function else "the entry"
        raise Refused(f"function {where}: block {block.id}: {what}: the translation is wrong; report it")

    def run(self, starts, inner):
        """Follows all blocks, from the first on, until no state changes. `starts`: what is live where other functions
        begin; `inner`: whether a call may lead back to this function."""
        first, order = self.blocks[0], {b: i for i, b in enumerate(self.blocks)}
        self.entering[first] = {("pair", self.pairs[p]): frozenset([p]) for p in first.params
                                if p in self.start[first]}
        todo = {first}
        while todo:
            b = min(todo, key=order.get)
            todo.discard(b)
            self.state = dict(self.entering[b])
            self.block(b)
            for n, e in enumerate(b.edges()):
                state = self.called(b, starts, inner) if b.term[0] == "call" else self.moved(b, n, e)
                if self.meet(e.to, state):
                    todo.add(e.to)

    def meet(self, b, state):
        """Adds another way into a block; returns whether less is known there now."""
        old = self.entering.get(b)
        if old is None:
            self.entering[b] = state
            return True
        new = {place: names & state[place] for place, names in old.items() if place in state}
        new = {place: names for place, names in new.items() if names}
        self.entering[b] = new
        return new != old

    # Within a block
    def holds(self, x):
        """The names of what an operand holds, in the graph after allocation."""
        if isinstance(x, int):
            return frozenset([("word", x)])
        if x.op == "ref":
            return frozenset([("ref", x.a)])
        return self.state.get(("pair", self.pairs[x]), frozenset())

    def read(self, b, x, meant, what):
        if self.before.name(meant) not in self.holds(x):
            self.wrong(b, f"{what} reads {x} for {meant}, and pair {self.pairs.get(x)} need not hold it")

    def block(self, b):
        rows = iter(self.before.insts[b])
        known = {v for v, *_ in self.before.insts[b]}
        for v in b.insts:
            if v not in known:
                self.added(b, v)
                continue
            row = next(rows)
            while row[0] is not v:      # computed again at each use
                if row[1] not in ("const", "idx"):
                    self.wrong(b, f"{row[0]} is gone")
                row = next(rows)
            self.kept(b, *row)
        if any(op not in ("const", "idx") for _, op, *_ in rows):
            self.wrong(b, "the last values are gone")
        meant = self.before.ends[b]
        if b.term[0] == "bz":
            self.read(b, b.term[1], meant, "the branch")
        elif b.term[0] == "ret":
            for x, y in zip(b.term[2], meant):
                self.read(b, x, y, "the return")
            back = self.function.back
            if back is not None:
                self.read(b, back, back, "the return")

    def kept(self, b, v, op, first, second):
        """A value that was in the graph before: it reads the same values, and is in its pair now."""
        for x, meant in ((v.a, first), (v.b, second)):
            if isinstance(meant, Value) and op != "return":
                self.read(b, x, meant, f"{v} ({op})")
            elif x != meant:
                self.wrong(b, f"{v} ({op}) reads {x} for {meant}")
        if op in WITHOUT_RESULT:
            return
        names = {self.before.name(v)}
        if op == "copy":
            names |= self.holds(v.a)
        elif op == "get":
            pair = b.after.results[v.a]
            if ("result", v.a) not in self.state.get(("pair", pair), ()):
                self.wrong(b, f"{v}: pair {pair} need not hold result {v.a}")
        self.forget({v})
        self.state["pair", self.pairs[v]] = frozenset(names)

    def added(self, b, v):
        """An instruction that the spiller has inserted: a word, an address, or a load or store of a cell."""
        if v.op == "const":
            names = frozenset([("word", v.a)])
        elif v.op == "idx":
            names = frozenset(("index", name) for name in self.holds(v.a))
        elif v.op == "frame":
            names = frozenset([("frame", v.a)])
        elif v.op == "ld":
            names = self.state.get(self.cell(b, v.a), frozenset())
        elif v.op == "st":
            self.state[self.cell(b, v.a)] = self.holds(v.b)
            return
        else:
            self.wrong(b, f"{v} ({v.op}) is new")
        self.state["pair", self.pairs[v]] = names

    def cell(self, b, address):
        """The place that an address made by the spiller means."""
        if address.op == "ref":
            self.cells.add(address.a)
            return "ref", address.a
        if ("frame", address.a) not in self.holds(address):
            self.wrong(b, f"pair {self.pairs[address]} need not hold the address of word {address.a} of the frame")
        return "frame", address.a

    def forget(self, values):
        """These values are computed anew: whatever else has their names is out of date."""
        for place, names in self.state.items():
            old = [name for name in names if mentions(name, values)]
            if old:
                self.state[place] = names.difference(old)

    # Between blocks
    def moved(self, b, n, e):
        """The state after the moves of an edge, under the names that its block knows."""
        state, given = dict(self.state), {}
        for p, x in zip(e.to.params, e.args):
            if p in self.start[e.to]:
                state["pair", self.pairs[p]] = self.holds(x)
        params = self.before.params[e.to]
        for p, x in zip(params, self.before.args[b][n]):
            given.setdefault(self.before.name(x), []).append(p)
        params = set(params)
        return {place: frozenset([name for name in names if not mentions(name, params)] +
                                 [p for name in names for p in given.get(name, ())])
                for place, names in state.items()}

    def called(self, b, starts, inner):
        """The state after a call returns: what the function uses is lost, and its results are there."""
        _, callee, args, _ = b.term
        for p, x, meant in zip(callee.graph.entry.params, args, self.before.ends[b]):
            if p in starts[callee.graph.entry]:
                self.read(b, x, meant, f"the call of {callee.func.name}")
        if inner(callee):
            state = {place: names for place, names in self.state.items() if place[0] == "frame"}
        else:
            state = {place: names for place, names in self.state.items()
                     if place[0] != "pair" or place[1] not in callee.used}
        for i, pair in enumerate(callee.results):
            state["pair", pair] = frozenset([("result", i)])
        return state


def watch():
    """Makes every later translation run these tests."""
    give, give_all, found = subroutines.allocate, subroutines.Program.allocate, []
    emit = translate.emitted

    def allocate(blocks, first_cell, banned, inner):
        before = Before(blocks)
        done = give(blocks, first_cell, banned, inner)
        if banned & set(done[0].values()):
            raise Refused("a value is in a reserved pair: the translation is wrong; report it")
        found.append((before, list(blocks), done[0], done[1]))
        return done

    def allocate_all(program, first_cell):
        found.clear()
        give_all(program, first_cell)
        cells = set()
        for function, rows in zip(program.order, found):
            places = Places(function, *rows)
            places.run(program.start, lambda callee, caller=function: program.is_inner(caller, callee))
            if cells & places.cells or any(cell < first_cell for cell in places.cells):
                raise Refused("two functions spill to one cell: the translation is wrong; report it")
            cells |= places.cells

    def emitted(*words):
        emitter = emit(*words)
        follow(emitter)
        return emitter

    subroutines.allocate, subroutines.Program.allocate, translate.emitted = allocate, allocate_all, emitted


if __name__ == "__main__":
    watch()
    runpy.run_path(sys.argv[0], run_name="__main__")
