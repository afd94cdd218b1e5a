"""Pass 6: turns pairs into instructions in two colours, with code types and substitutions. For pair i, green uses
register i and blue register 32 + i; both do the same, and share nothing. Nodes mirror the instructions, so that each
normal form is compared with itself."""
from .alloc import K
from .ir import Block, Value
from .nodes import Nodes
from .turn import loops_to_turn
from .words import M64

SPARE = K
FIRST = 1 << 20


class Emitter:
    def __init__(self, program, length, pins=(), scopes=None):
        """pins: constants that have a pair of their own in all blocks: ("ref", cell), ("word", w) or ("code", block).
        scopes: for each block in a loop the constants that the loop keeps, each with its pair."""
        self.pairs, self.start, self.length, self.entry = program.pairs, program.start, length, program.main.entry
        self.program, self.backs, blocks = program, program.backs, program.blocks
        self.returns = {b.after: b for b in reversed(blocks) if b.after}
        self.nodes = Nodes()
        self.memory = self.nodes.make("memory")
        self.pins = dict(zip(pins, self.free()))
        self.types, self.type_keys = {None: 0}, [None]
        self.scopes, self.here = scopes or {}, {}
        self.uses, self.depth, self.block = {}, 0, None
        self.code = []           # instructions as tuples; a label is ("code", block)
        self.heads = []          # (block, first instruction, type)
        self.place, self.todo = {}, []
        self.preds = {}
        for b in blocks:
            for e in b.edges():
                self.preds[e.to] = self.preds.get(e.to, 0) + 1
        self.spills = 0
        self.rotated = loops_to_turn(blocks, self.skip)
        self.wanted = set(self.rotated.values())

    def again(self, head):
        """Repeats the test of a loop, with a branch back into the loop if it continues."""
        _, cond, zero, other = head.term
        inside = self.rotated[head]
        turn = inside is other.to
        self.depth = head.depth
        self.enter(head)
        for v in head.insts:
            if v is cond and turn and v.op in ("eq", "xor", "sub"):
                b = ("word", v.b) if isinstance(v.b, int) else self.pairs[v.b]
                self.operate("xor" if v.op == "eq" else "eq", self.pairs[v], self.pair_of(v.a), b)
                turn = False
            else:
                self.instruction(v)
        assert not turn
        self.branch(cond, inside)
        self.depth = min(zero.to.depth, other.to.depth)
        self.jump(self.skip(zero.to if inside is other.to else other.to))

    # Types
    def key(self, block):
        if block is self.entry:
            return None
        if block.after:
            return self.return_key(block.after)
        kinds = {"idx": "ref:int", "return": block.home}
        rows = [(self.pairs[v], kinds.get(v.op, "int")) for v in self.start[block]]
        rows += [(pair, "int") for pair in (block.home.kept if block.home else ())]
        rows += [(pair, {"ref": "ref:int", "word": "int"}.get(pin[0]) or pin[1])
                 for pin, pair in self.scopes.get(block, {}).items()]
        assert len({r for r, _ in rows}) == len(rows), "two live values in a pair"
        return tuple(sorted(rows, key=lambda r: r[0]))

    def return_key(self, shared):
        """The values after a shared function returns: its results, and what its callers keep."""
        return tuple(sorted((pair, "int") for pair in [*shared.results, *shared.kept]))

    def type_of(self, block):
        return self.type_of_key(self.key(block))

    def type_of_key(self, key):
        if key not in self.types:
            self.types[key] = len(self.type_keys)
            self.type_keys.append(key)
        return self.types[key]

    def full_key(self, key):
        """The rows of a type: (pair, kind)."""
        if key is None:
            return []
        rows = [(pair, kind if isinstance(kind, str) else ("code", self.type_of(kind)) if isinstance(kind, Block)
                 else self.return_code(kind)) for pair, kind in key]
        rows += [(pair, self.return_code(shared)) for shared, pair in self.backs.items()]
        rows += [(pair, "int") for pair in self.program.stack or ()]
        for pin, pair in self.pins.items():
            kind = {"ref": "ref:int", "word": "int"}.get(pin[0])
            rows.append((pair, kind or ("code", self.type_of(pin[1]))))
        return rows

    def return_code(self, shared):
        return "code", self.type_of_key(self.return_key(shared))

    def free(self):
        """The pairs that hold nothing anywhere."""
        kept = {pair for shared in self.returns for pair in [*shared.kept, *shared.used]}
        kept |= {*self.backs.values(), *(self.program.stack or ())}
        return sorted(set(range(SPARE)) - set(self.pairs.values()) - kept)

    def constant(self, pin):
        """The pair of a constant: its own, or the spare."""
        own = self.pins.get(pin, self.here.get(pin))
        if own is not None:
            return own
        self.count(pin)
        if self.spare != pin:
            self.put(pin, SPARE)
            self.spare = pin
        return SPARE

    def put(self, pin, pair):
        if pin[0] == "code":
            self.both("mov", pair, pin, ("code", self.type_of(pin[1])))
            self.at[pair] = self.nodes.make(*pin)
        else:
            self.move_word(pair, FIRST + pin[1] if pin[0] == "ref" else pin[1], "ref:int" if pin[0] == "ref" else "int")

    def count(self, pin):
        """Counts a use of a constant that has no pair of its own."""
        key = self.block, pin
        self.uses[key] = self.uses.get(key, 0) + 10 ** min(self.depth, 6)

    def enter(self, block):
        """Puts the constants that a loop keeps into their pairs, on the way into it."""
        kept, fresh = self.scopes.get(block, {}), {}
        for pin, pair in kept.items():
            if self.here.get(pin) != pair:
                self.put(pin, pair)
                fresh[pin] = pair
        if fresh:
            old = {pin: pair for pin, pair in self.here.items() if pair not in fresh.values()}
            self.here = {**old, **fresh}

    def enters(self, before, block):
        """Whether there are more constants in a block than in the one before."""
        had = self.scopes.get(before, {})
        return any(had.get(pin) != pair for pin, pair in self.scopes.get(block, {}).items())

    def pair_of(self, v):
        if v.op == "const":
            return self.pins.get(("word", v.a), self.here.get(("word", v.a), self.pairs[v]))
        return self.pairs[v]

    def put_return(self, pair, shared, tail):
        """The return address of a function."""
        self.both("mov", pair, ("code", tail), self.return_code(shared))
        self.at[pair] = self.nodes.make("code", tail)

    # Instructions: one in green, one in blue
    def both(self, op, *fields):
        if op != "st" and fields[op == "op"] == SPARE:
            self.spare = None       # forgets what the spare pair held
        for colour in "GB":
            self.code.append((op, colour, *fields))

    def word(self, w):
        return self.nodes.make("word", w)

    def move_word(self, pair, w, kind="int"):
        self.both("mov", pair, w, kind)
        self.at[pair] = self.word(w)

    def operate(self, op, pair, a, b):
        """b is a pair, or ("word", w)."""
        self.both("op", op, pair, a, b)
        nb = self.word(b[1]) if isinstance(b, tuple) else self.at[b]
        self.at[pair] = self.nodes.make(op, self.at[a], nb)

    def copy(self, pair, a):
        self.both("op", "add", pair, a, ("word", 0))
        self.at[pair] = self.at[a]

    def address(self, ref):
        """The pair that holds the address of a cell."""
        if ref.op in ("idx", "frame"):
            return self.pairs[ref]
        return self.constant(("ref", ref.a))

    def instruction(self, v):
        make = self.nodes.make
        if v.op == "ref":
            return
        if v.op == "st":
            address = self.address(v.a)
            value = self.pair_of(v.b)
            self.both("st", address, value)
            self.mem = make("upd", self.mem, self.at[address], self.at[value])
            if v.a.op == "ref" and v.a.a >= self.first_spill:
                self.spills += 1
            return
        pair = self.pairs[v]
        if v.op == "const":
            if ("word", v.a) not in self.pins and ("word", v.a) not in self.here:
                self.count(("word", v.a))
                self.move_word(pair, v.a)
        elif v.op == "copy" and isinstance(v.a, int):
            self.move_word(pair, v.a)
        elif v.op in ("get", "copy"):
            come = self.after.results[v.a] if v.op == "get" else self.pairs[v.a]
            if come != pair:
                self.copy(pair, come)
        elif v.op == "idx":
            self.index(pair, self.pairs[v.a], 0, self.length)
        elif v.op == "depth":
            self.copy(pair, self.program.stack[0])
        elif v.op == "frame":
            self.operate("add", pair, self.program.stack[1], ("word", v.a))
            self.index(pair, pair, self.program.frames, self.program.most * self.program.frame)
        elif v.op == "ld":
            address = self.address(v.a)
            self.both("ld", pair, address)
            self.at[pair] = make("sel", self.mem, self.at[address])
        else:
            b = ("word", v.b) if isinstance(v.b, int) else self.pairs[v.b]
            self.operate(v.op, pair, self.pair_of(v.a), b)

    def index(self, pair, a, first, length):
        self.both("idx", pair, a, first, length)
        self.at[pair] = self.nodes.make("add", self.word(FIRST + first), self.nodes.make("rem", self.at[a], length))

    def return_cell(self, shared):
        """Puts the address of the cell where a recursive function keeps its return address into the spare pair."""
        self.index(SPARE, self.program.stack[0], self.program.returns[shared], self.program.most)

    # Transfers
    def rows(self, block):
        return self.mem, tuple(self.at[pair] for pair, _ in self.full_key(self.key(block)))

    def to_block(self, block):
        if block not in self.place:
            self.place[block] = None
            self.todo.append(block)
        return self.constant(("code", block))

    def jump(self, block):
        self.enter(block)
        pair = self.to_block(block)
        self.code.append(("jmp", "G", pair))
        self.code.append(("jmp", "B", pair, *self.rows(block)))

    def branch(self, cond, block):
        pair = self.to_block(block)
        self.code.append(("bz", "G", self.pairs[cond], pair))
        self.code.append(("bz", "B", self.pairs[cond], pair, *self.rows(block)))

    def call(self, block):
        """Moves arguments to where the function expects them, sets to 0 the pairs that pass through it without a word,
        sets the return address, and jumps."""
        _, shared, args, edge = block.term
        entry, tail, moves = shared.graph.entry, edge.to, []
        for p, x in zip(entry.params, args):
            if p in self.start[entry]:
                word = self.pairs[x] if isinstance(x, Value) else ("word", x)
                if word != self.pairs[p]:
                    moves.append((self.pairs[p], word))
        self.do_moves(moves)
        for pair in shared.kept:
            if pair not in self.at:
                self.move_word(pair, 0)
        back = self.backs.get(shared, self.pairs.get(shared.back))
        if back is not None:
            self.put_return(back, shared, tail)
        if tail not in self.place:
            self.place[tail] = None
            self.todo.append(tail)
        if block.home and block.home.circle:
            self.move_frame(1)
        self.jump(entry)

    def move_frame(self, by):
        """Moves to the next frame, or back to the one before."""
        for pair, words in zip(self.program.stack, (by, by * self.program.frame)):
            self.operate("add", pair, pair, ("word", words & M64))

    def give_back(self, shared, values):
        self.do_moves([(to, self.pairs[v]) for to, v in zip(shared.results, values) if to != self.pairs[v]])
        pair = self.backs.get(shared, self.pairs.get(shared.back))
        if shared.circle:
            pair = SPARE
            self.return_cell(shared)
            self.both("ld", SPARE, SPARE)
            self.at[SPARE] = self.nodes.make("sel", self.mem, self.at[SPARE])
        rows = tuple(self.at[p] for p, _ in self.full_key(self.return_key(shared)))
        self.code.append(("jmp", "G", pair))
        self.code.append(("jmp", "B", pair, self.mem, rows))

    def moves_for(self, edge):
        """The moves of an edge: (pair, pair or ("word", w))."""
        moves = []
        for p, x in zip(edge.to.params, edge.args):
            if p in self.start[edge.to]:
                to = self.pairs[p]
                if not isinstance(x, Value):
                    moves.append((to, ("word", x)))
                elif self.pairs[x] != to:
                    moves.append((to, self.pairs[x]))
        return moves

    def do_moves(self, moves):
        words = [(to, w[1]) for to, w in moves if isinstance(w, tuple)]
        left = {to: a for to, a in moves if not isinstance(a, tuple)}
        while left:
            free = [to for to in left if to not in left.values()]
            if free:
                self.copy(free[0], left.pop(free[0]))
            else:
                to = next(iter(left))
                self.copy(SPARE, to)
                left = {t: SPARE if a == to else a for t, a in left.items()}
        for to, w in words:
            self.move_word(to, w)

    def skip(self, block):
        """The direct target of a branch to a block: past blocks that only jump."""
        seen = set()
        while block not in seen and not block.insts and block.term[0] == "jmp" and block is not self.entry:
            seen.add(block)
            edge = block.term[1]
            if edge.to is block or self.moves_for(edge) or self.enters(block, edge.to):
                break
            block = edge.to
        return block

    def chain(self, block):
        """Emits a block and those that follow it without a jump."""
        self.place[block] = len(self.code)
        kind = self.type_of(block)
        self.heads.append((block, len(self.code), kind))
        self.at = {pair: self.nodes.make("var", i) for i, (pair, _) in enumerate(self.full_key(self.type_keys[kind]))}
        self.mem, self.depth, self.after, self.spare = self.memory, block.depth, block.after, None
        self.begin(block)
        while block:
            self.depth, self.block, self.here = block.depth, block, self.scopes.get(block, {})
            for v in block.insts:
                self.instruction(v)
            block = self.end(block)

    def begin(self, block):
        """Emits what comes before the instructions of a block: constants of the program, the frame of a recursive
        function."""
        home = block.home
        if home and home.circle and block is home.graph.entry:
            self.return_cell(home)
            self.both("st", SPARE, self.backs[home])
            self.mem = self.nodes.make("upd", self.mem, self.at[SPARE], self.at[self.backs[home]])
        if block.after and home and home.circle:
            self.move_frame(-1)
        if block is self.entry:
            for pair in self.program.stack or ():
                self.move_word(pair, 0)
            for shared, pair in self.backs.items():
                self.put_return(pair, shared, self.returns[shared])
            for pin, pair in self.pins.items():
                self.put(pin, pair)

    def end(self, block):
        """Emits the end of a block; returns the block that follows it without a jump, or None."""
        op = block.term[0]
        if op == "halt":
            self.code.append(("halt", "G"))
        elif op == "call":
            self.call(block)
        elif op == "ret":
            self.give_back(*block.term[1:])
        elif op == "bz":
            _, cond, zero, other = block.term
            self.branch(cond, self.skip(zero.to))
            if other.to not in self.place and self.preds[other.to] == 1 and other.to not in self.wanted:
                return other.to
            self.jump(other.to)
        else:
            edge = block.term[1]
            self.do_moves(self.moves_for(edge))
            if self.preds[edge.to] == 1 and edge.to not in self.place:
                return edge.to
            if edge.to in self.rotated and edge.to in self.place:
                self.again(edge.to)
            else:
                self.jump(self.skip(edge.to))
        return None

    def run(self, first_spill):
        self.first_spill = first_spill
        self.place[self.entry] = None
        self.todo = [self.entry]
        while self.todo:
            self.chain(self.todo.pop(0))

    def traps(self):
        """For the number of each block that is a trap: (function, offset in the module, what)."""
        return {i: block.trap for i, (block, _, _) in enumerate(self.heads) if block.trap}
