"""The graph: values in single-assignment form over 64-bit words, and blocks with parameters."""
from .fold import Folding
from .words import M64


class Value:
    """op is one of PURE, or: param; const a; ref a (the cell a); idx a (the cell a modulo the memory's length);
    ld a (the cell at the address a); st a b (the word b to the cell at the address a); put a b (the word a is the
    argument or the result of number b); call (of the shared function `sub`); get a (the result of number a); return
    (the address to go back to)."""
    __slots__ = ("id", "op", "a", "b", "ones", "block", "repl", "most", "sub", "full")
    count = 0

    def __init__(self, op, a=None, b=None, ones=M64, block=None):
        Value.count += 1
        self.id, self.op, self.a, self.b, self.ones, self.block = Value.count, op, a, b, ones, block
        self.repl, self.most, self.sub, self.full = None, M64, None, M64

    def __repr__(self):
        return f"v{self.id}"


class Edge:
    __slots__ = ("to", "args")

    def __init__(self, to, args=()):
        self.to, self.args = to, list(args)


class Block:
    count = 0

    def __init__(self, depth=0, note=""):
        Block.count += 1
        self.id, self.params, self.insts, self.term = Block.count, [], [], None
        self.depth, self.note, self.trap, self.after, self.home = depth, note, None, None, None
        self.cse, self.known = {}, {}

    def edges(self):
        """jmp EDGE; bz VALUE EDGE EDGE; call SHARED ARGUMENTS EDGE; ret SHARED VALUES; halt."""
        op = self.term[0]
        if op == "jmp":
            return [self.term[1]]
        return list(self.term[2:4]) if op == "bz" else [self.term[3]] if op == "call" else []

    def __repr__(self):
        return f"b{self.id}"


class Graph(Folding):
    """`block` makes blocks, and `mk` values, which it folds; `at` is the current block."""

    def __init__(self):
        self.at = None
        self.entry = None
        self.blocks, self.added = [], []

    def block(self, depth=0, note="", heir_of=None):
        new = Block(depth, note)
        if heir_of is not None and len(heir_of.cse) < 200:
            new.cse, new.known = dict(heir_of.cse), dict(heir_of.known)
        self.blocks.append(new)
        return new

    def param(self, block, ones=M64):
        value = Value("param", ones=ones, block=block)
        block.params.append(value)
        return value

    def new(self, op, a=None, b=None, ones=M64):
        value = Value(op, a, b, ones, self.at)
        self.at.insts.append(value)
        return value

    def keyed(self, op, a, b=None, ones=M64):
        key = op, a, b
        found = self.at.cse.get(key)
        if found is None:
            found = self.at.cse[key] = self.new(op, a, b, ones)
            self.added.append(key)
        return found

    # Memory: cells by number, or by an index modulo the length.
    def address(self, index, length):
        if isinstance(index, int):
            return self.keyed("ref", index % length)
        if index.op == "add" and isinstance(index.b, int) and length & (length - 1) == 0 and index.b >= length:
            return self.address(self.mk("add", index.a, index.b % length), length)
        return self.keyed("idx", index)

    def load(self, address):
        known = self.at.known.get(address)
        if known is None:
            known = self.at.known[address] = self.new("ld", address)
        return known

    def store(self, address, value):
        self.new("st", address, value)
        known = self.at.known
        if address.op == "ref":
            for other in [k for k in known if k.op == "idx"]:
                del known[other]
        else:
            known.clear()
        known[address] = value
