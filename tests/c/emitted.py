"""Compares the emitted code with the graph that it comes from, block by block, over symbolic words.

A block begins with each value in its pair. At each jump and branch that leaves it, the values and the stores of the
instructions must be those of the graph. So copies on edges, constants kept in pairs, repeated loop tests, and jumps
past empty blocks are tested along every path."""
from common import Refused
from wasm.emit import FIRST
from wasm.words import M64


class Symbols:
    """Symbolic words, each with a number; words that are made the same way are the same."""

    def __init__(self):
        self.numbers, self.rows = {}, []

    def __call__(self, *row):
        number = self.numbers.setdefault(row, len(self.rows))
        if number == len(self.rows):
            self.rows.append(row)
        return number

    def operation(self, op, a, b):
        """Merges constants that are added in turn, so that a copy, or a move to a frame and back, changes nothing."""
        first, second = self.rows[a], self.rows[b]
        if op == "add" and second[0] == "word":
            if first[0] == "add" and self.rows[first[2]][0] == "word":
                a, b = first[1], self("word", (self.rows[first[2]][1] + second[1]) & M64)
            if self.rows[b] == ("word", 0):
                return a
        return self(op, a, b)

    def is_turned(self, cond, tested):
        """Whether a word is 0 exactly when the condition is not."""
        cond, tested = self.rows[cond], self.rows[tested]
        return cond[1:] == tested[1:] and (cond[0] == "eq") != (tested[0] == "eq") and \
            {cond[0], tested[0]} <= {"eq", "xor", "sub"}


class Follower:
    """Follows the code of one block, and of those that follow it without a jump."""

    def __init__(self, emitter, symbols, block, at):
        self.emitter, self.program, self.pairs, self.start = emitter, emitter.program, emitter.pairs, emitter.start
        self.block, self.at, self.first, self.has_run, self.is_past = block, at, block, False, False
        self.held, self.env, self.stores, self.wanted, self.symbol = {}, {}, [], [], symbols
        self.begin()

    def wrong(self, what):
        raise Refused(f"block {self.first.id}, at {self.block.id}: {what}: the translation is wrong; report it")

    # Where a block begins
    def constants(self, block):
        """The pairs that hold a constant where a block begins."""
        pins = {**self.emitter.pins, **self.emitter.scopes.get(block, {})}
        return {pair: self.symbol("cell" if pin[0] == "ref" else pin[0], pin[1]) for pin, pair in pins.items()}

    def begin(self):
        block, home, program = self.block, self.block.home, self.program
        for v in self.start[block]:
            self.held[self.pairs[v]] = self.env[v] = self.symbol("value", v)
        if block is self.emitter.entry:
            return
        self.held.update(self.constants(block))
        for pair in home.kept if home else ():
            self.held[pair] = self.symbol("kept", pair)
        if block.after:
            self.held.update((pair, self.symbol("result", i)) for i, pair in enumerate(block.after.results))
        if home in program.backs and not (block.after and home.circle):
            self.held[program.backs[home]] = self.symbol("back", home)
        for i, pair in enumerate(program.stack or ()):
            self.held[pair] = self.symbol("stack", i)
            if block.after and home and home.circle:
                self.held[pair] = self.stack(i, (1, program.frame)[i])
        if home and home.circle and block is home.graph.entry:
            self.wanted.append((self.return_cell(home), self.symbol("back", home)))

    def stack(self, i, by=0):
        """Word i of those that describe the stack of frames, plus `by`."""
        return self.symbol.operation("add", self.symbol("stack", i), self.symbol("word", by))

    def return_cell(self, function):
        return self.symbol("idx", self.stack(0), self.program.returns[function], self.program.most)

    # The graph
    def word(self, x):
        if isinstance(x, int):
            return self.symbol("word", x)
        if x.op == "ref":
            return self.symbol("cell", x.a)
        if x not in self.env:
            self.wrong(f"{x} is used and is not there")
        return self.env[x]

    def run_block(self):
        """Computes the values of the current block of the graph, once."""
        if self.has_run:
            return
        self.has_run = True
        for v in self.block.insts:
            if v.op == "st":
                self.wanted.append((self.word(v.a), self.word(v.b)))
            elif v.op != "ref":
                self.env[v] = self.made(v)

    def made(self, v):
        if v.op in ("const", "copy"):
            return self.word(v.a)
        if v.op == "get":
            return self.symbol("result", v.a)
        if v.op == "idx":
            return self.symbol("idx", self.word(v.a), 0, self.emitter.length)
        if v.op == "depth":
            return self.stack(0)
        if v.op == "frame":
            return self.symbol("idx", self.stack(1, v.a), self.program.frames, self.program.most * self.program.frame)
        if v.op == "ld":
            return self.symbol("ld", self.word(v.a), len(self.wanted))
        return self.symbol.operation(v.op, self.word(v.a), self.word(v.b))

    def take(self, edge):
        """Follows an edge."""
        given = [self.word(x) for x in edge.args]
        self.env.update(zip(edge.to.params, given))
        self.block, self.has_run, self.is_past = edge.to, False, True

    # The code
    def run_code(self):
        """Runs the instructions up to the next jump, branch or end, and returns that."""
        code, held = self.emitter.code, self.held
        while True:
            op, colour, *fields = ins = code[self.at]
            if op in ("jmp", "bz", "halt"):
                return ins
            self.at += 1
            if (op, "B", *fields) != code[self.at]:
                self.wrong("the colours differ")
            self.at += 1
            if op == "mov":
                pair, word, kind = fields
                held[pair] = self.symbol(*(word if isinstance(word, tuple) else ("cell", word - FIRST)
                                           if kind == "ref:int" else ("word", word)))
            elif op == "op":
                name, pair, a, b = fields
                second = self.symbol(*b) if isinstance(b, tuple) else self.read(b)
                held[pair] = self.symbol.operation(name, self.read(a), second)
            elif op == "idx":
                held[fields[0]] = self.symbol("idx", self.read(fields[1]), *fields[2:])
            elif op == "ld":
                held[fields[0]] = self.symbol("ld", self.read(fields[1]), len(self.stores))
            else:
                self.stores.append((self.read(fields[0]), self.read(fields[1])))

    def read(self, pair):
        if pair not in self.held:
            self.wrong(f"pair {pair} is read and holds nothing")
        return self.held[pair]

    def code(self, block):
        return self.symbol("code", block)

    def need(self, pair, word, what):
        if self.held.get(pair) != word:
            self.wrong(f"{what}: pair {pair} holds {self.told(self.held.get(pair))}, and not {self.told(word)}")

    def told(self, word):
        return "nothing" if word is None else self.symbol.rows[word]

    def same_stores(self):
        if self.stores != self.wanted:
            self.wrong("the stores are not those of the graph")

    # Where code and graph leave the block
    def follow(self):
        while True:
            op, _, *fields = self.run_code()
            if op == "jmp" and self.is_past and not self.has_run and self.held.get(fields[0]) == self.code(self.block):
                return self.arrive()
            self.run_block()
            if op == "halt":
                while self.block.term[0] == "jmp":
                    self.take(self.block.term[1])
                    self.run_block()
                self.same_stores()
                return self.block.term[0] == "halt" or self.wrong("the code ends")
            self.at += 2
            if op == "jmp":
                return self.jump(self.read(fields[0]))
            self.branch(self.read(fields[0]), self.read(fields[1]))

    def jump(self, target):
        term = self.block.term
        while term[0] == "jmp":
            self.take(term[1])
            if target == self.code(self.block):
                return self.arrive()
            self.run_block()
            term = self.block.term
        self.same_stores()
        if term[0] == "call":
            return self.call(target, *term[1:])
        if term[0] == "ret":
            return self.give_back(target, *term[1:])
        return self.wrong(f"a jump to {self.told(target)}")

    def branch(self, tested, target):
        while self.block.term[0] == "jmp":
            self.take(self.block.term[1])
            self.run_block()
        if self.block.term[0] != "bz":
            self.wrong("a branch")
        _, cond, zero, other = self.block.term
        cond = self.word(cond)
        if tested != cond:
            if not self.symbol.is_turned(cond, tested):
                self.wrong(f"a branch tests {self.told(tested)}, and not {self.told(cond)}")
            zero, other = other, zero
        here, env = self.block, dict(self.env)
        self.take(zero)
        while target != self.code(self.block):
            if self.block.insts or self.block.term[0] != "jmp" or self.block is here:
                self.wrong(f"a branch to {self.told(target)}")
            self.take(self.block.term[1])
        self.arrive()
        self.env = env
        self.take(other)

    def arrive(self):
        """Where the next block begins, each value is in its pair, and so is what passes through."""
        block = self.block
        self.same_stores()
        for v in self.start[block]:
            self.need(self.pairs[v], self.word(v), f"{v} for block {block.id}")
        for pair, word in self.constants(block).items():
            self.need(pair, word, f"a constant for block {block.id}")
        self.passes(block.home)

    def passes(self, home, by=(0, 0)):
        """What callers keep has not moved, and the stack of frames has moved by `by`."""
        for pair in home.kept if home else ():
            self.need(pair, self.symbol("kept", pair), "what a caller keeps")
        if home in self.program.backs and not home.circle:
            self.need(self.program.backs[home], self.symbol("back", home), "the address to go back to")
        for i, pair in enumerate((self.program.stack or ()) if home else ()):
            self.need(pair, self.stack(i, by[i]), "the stack of frames")

    def call(self, target, shared, args, edge):
        entry, home, tail = shared.graph.entry, self.block.home, edge.to
        if target != self.code(entry):
            self.wrong(f"a call of {self.told(target)}")
        for p, x in zip(entry.params, args):
            if p in self.start[entry]:
                self.need(self.pairs[p], self.word(x), f"argument {p}")
        back = self.program.backs.get(shared, self.pairs.get(shared.back))
        if back is not None:
            self.need(back, self.code(tail), "the address to come back to")
        for v in self.start[tail]:
            if self.pairs[v] not in shared.kept:
                self.wrong(f"{v} does not live through the call")
            self.need(self.pairs[v], self.word(v), f"{v} after the call")
        for pair, word in self.constants(entry).items():
            self.need(pair, word, "a constant for a function")
        if home is not None and home is not shared:
            self.passes(home, (1, self.program.frame) if home.circle else (0, 0))

    def give_back(self, target, shared, values):
        for i, v in enumerate(values):
            self.need(shared.results[i], self.word(v), f"result {i}")
        back = self.symbol("back", shared) if shared in self.program.backs else self.symbol("value", shared.back)
        if shared.circle:
            back = self.symbol("ld", self.return_cell(shared), len(self.stores))
        if target != back:
            self.wrong(f"goes back to {self.told(target)}")
        self.passes(shared)


def follow(emitter):
    """Follows all blocks of an emitted program."""
    symbols = Symbols()
    for block, at, _ in emitter.heads:
        Follower(emitter, symbols, block, at).follow()
