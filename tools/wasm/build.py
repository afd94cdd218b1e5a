"""Pass 2: turns functions into graphs. Structured control becomes blocks with parameters."""
from .arith import Arith
from .bulk import Bulk
from .called import Calls
from .floats import Floats, builtin
from .ir import Edge, Graph, Value
from .memory import Access
from .opcodes import F32, I32
from .refused import Refused
from .traps import UNREACHABLE
from .words import M32, M64

MOST_VALUES = 400_000
UNARY = {"eqz", "clz", "ctz", "popcnt", "wrap", "extend_s", "extend_u", "ext8", "ext16", "ext32", "reinterpret"}


class Label:
    """The target of branches: for a loop its head, otherwise the edges to its end, each with what is known there."""
    __slots__ = ("kind", "height", "results", "edges", "head", "assigned", "ins", "saved", "params")

    def __init__(self, kind, height, params, results, ins=None):
        self.kind, self.height, self.params, self.results, self.ins = kind, height, params, results, ins
        self.edges, self.head, self.assigned, self.saved = [], None, None, None


class Builder(Calls, Arith, Access, Bulk, Floats):
    def __init__(self, module, memory, checked=True, loops=False):
        self.module, self.memory, self.checked, self.loops = module, memory, checked, loops
        self.traps, self.calls, self.waiting, self.home, self.of_loops = {}, [], [], None, {}
        self.func = self.locals = self.stack = self.labels = None
        Value.count = 0
        self.steps = {
            "op": self.operate, "load": self.load_step, "store": self.store_step, "local.get": self.local_get,
            "local.set": self.local_set, "local.tee": self.local_tee, "global.get": self.global_get,
            "global.set": self.global_set, "drop": lambda ins: self.stack.pop(), "select": self.select,
            "memory.size": self.memory_size, "memory.grow": self.memory_grow, "memory.fill": self.memory_fill,
            "memory.copy": self.memory_copy, "memory.init": self.refuse_segment, "data.drop": self.refuse_segment,
            "unreachable": self.unreachable, "call": self.call, "call_indirect": self.call_indirect,
            "nop": lambda ins: None, "block": self.begin, "loop": self.begin, "if": self.begin, "else": self.otherwise,
            "end": self.end,
            "br": lambda ins: self.branch(self.labels[-1 - ins.a]), "return": lambda ins: self.branch(self.labels[0]),
            "br_if": self.branch_if, "br_table": self.branch_table}
        self.steps.update(dict.fromkeys(("i32.const", "i64.const", "f32.const", "f64.const"), self.constant))

    def use(self, graph):
        self.g, self.mk, self.depth = graph, graph.mk, 0

    def refuse(self, at, what, fix):
        raise Refused(what, fix, self.func.name if self.func else None, at)

    @staticmethod
    def ones_of_type(kind):
        return M32 if kind in (I32, F32) else M64

    def trap_edge(self, at, what):
        """An edge to a trap. A trap is a block that jumps to itself, so a run that ends has not trapped. Each has a
        block of its own, so that the place of a trap is known."""
        key = self.g, self.func.name, at, what
        if key not in self.traps:
            block = self.traps[key] = self.g.block()
            block.term, block.trap = ("jmp", Edge(block)), key[1:]
        return Edge(self.traps[key])

    def trap(self, at, what):
        self.g.at.term = ("jmp", self.trap_edge(at, what))
        self.g.at = self.g.block(self.depth)    # unreachable

    def build(self, entry, start, result_cell):
        """The graph of the program, and the shared functions."""
        self.plan([entry] + ([start] if start is not None else []))
        main = Graph()
        self.use(main)
        self.globals = [value for _, _, value in self.module.globals]
        self.stack = []
        self.g.entry = self.g.at = self.g.block(note=f"entry: {entry.name}")
        if start is not None:
            self.do_call(start, None)
        if self.g.at is not None:
            self.do_call(entry, None)
        if self.g.at is not None:
            if self.stack and result_cell is not None:
                self.g.store(self.g.keyed("ref", result_cell), self.stack[0])
            self.g.at.term = ("halt",)
        built = []
        while self.waiting:
            built.append(self.waiting.pop(0))
            self.build_shared(built[-1])
        return main, built

    def assignments(self, func):
        """For each loop of a function, by its place: the locals and the globals that it may set."""
        found, opened = {}, []
        for place, ins in enumerate(func.body):
            if ins.op in ("block", "loop", "if"):
                opened.append((place, ins.op, set(), set()))
            elif ins.op == "end" and opened:
                start, op, *inner = opened.pop()
                if op == "loop":
                    found[start] = tuple(map(sorted, inner))
                for outer, mine in zip(opened[-1][2:] if opened else (), inner):
                    outer |= mine
            elif opened:
                self.note_assigned(ins, func, *opened[-1][2:])
        return found

    def note_assigned(self, ins, func, local, globals_):
        """Adds what an instruction may set."""
        if ins.op in ("local.set", "local.tee"):
            local.add(ins.a)
        elif ins.op == "global.set":
            globals_.add(ins.a)
        elif ins.op == "call":
            globals_ |= self.effects[self.module.funcs[ins.a]][1]
        elif ins.op == "call_indirect":
            globals_ |= self.effects[func][1]
        elif ins.op == "op" and "." in ins.a and builtin(self.module, ins.a):
            globals_ |= self.effects[builtin(self.module, ins.a)][1]

    def run(self, body):
        pc = 0
        while pc < len(body):
            ins = body[pc]
            if self.g.at is None:
                if ins.op in ("block", "loop", "if"):
                    pc = ins.match + 1
                    continue
                if ins.op not in ("end", "else"):
                    pc += 1
                    continue
            if Value.count > MOST_VALUES:
                self.refuse(ins.at, "the code is too long", "call large functions from fewer places")
            self.pc = pc
            self.steps[ins.op](ins)
            pc += 1

    # One instruction each
    def operate(self, ins):
        name, bits = ins.a, ins.b
        if "." in name:
            self.float_operation(ins)
            return
        args = [self.stack.pop() for _ in range(1 if name in UNARY else 2)]
        self.stack.append(args[0] if name == "reinterpret" else self.operation(name, bits, args[::-1], ins.at))

    def load_step(self, ins):
        self.stack.append(self.load(self.stack.pop(), ins.a, *ins.b, ins.at))

    def store_step(self, ins):
        value = self.stack.pop()
        self.store(self.stack.pop(), value, ins.a, *ins.b, ins.at)

    def local_get(self, ins):
        self.stack.append(self.locals[ins.a])

    def local_set(self, ins):
        self.locals[ins.a] = self.stack.pop()

    def local_tee(self, ins):
        self.locals[ins.a] = self.stack[-1]

    def global_get(self, ins):
        self.stack.append(self.globals[ins.a])

    def global_set(self, ins):
        self.globals[ins.a] = self.stack.pop()

    def constant(self, ins):
        self.stack.append(ins.a)

    def select(self, _):
        cond, y = self.stack.pop(), self.stack.pop()
        self.stack.append(self.choose(cond, self.stack.pop(), y))

    def unreachable(self, ins):
        self.g.at.term = ("jmp", self.trap_edge(ins.at, UNREACHABLE))
        self.g.at = None

    # Control
    def label(self, kind, params, results, ins=None):
        return Label(kind, len(self.stack) - len(params), len(params), results, ins)

    def begin(self, ins):
        g, cond = self.g, self.stack.pop() if ins.op == "if" else None
        label = self.label(ins.op, *ins.a, ins)
        self.labels.append(label)
        if ins.op == "loop":
            self.begin_loop(label)
        elif ins.op == "if":
            label.saved = (list(self.locals), list(self.globals), list(self.stack))
            then, label.head = (g.block(self.depth, heir_of=g.at) for _ in range(2))
            g.at.term = ("bz", cond, Edge(label.head), Edge(then))
            g.at = then

    def otherwise(self, _):
        label = self.labels[-1]
        if self.g.at is not None:
            self.leave(label)
        self.locals, self.globals, self.stack = (list(x) for x in label.saved)
        self.g.at, label.head = label.head, None

    def end(self, _):
        label = self.labels.pop()
        if self.g.at is not None:
            self.leave(label)
        if label.kind == "if" and label.head is not None:
            self.locals, self.globals, self.stack = (list(x) for x in label.saved)
            self.g.at = label.head
            self.leave(label)
        if label.kind == "loop":
            self.depth -= 1
        self.join(label)

    def branch_if(self, ins):
        cond, g = self.stack.pop(), self.g
        on = g.block(self.depth, heir_of=g.at)
        block, g.at = g.at, None
        block.term = ("bz", cond, Edge(on), self.edge_to(self.labels[-1 - ins.a]))
        g.at = on

    def branch_table(self, ins):
        depths = [*ins.a, ins.b]
        self.tree(self.stack.pop(), list(enumerate(depths)), lambda depth: self.branch(self.labels[-1 - depth]))

    def begin_loop(self, label):
        g = self.g
        self.depth += 1
        head = g.block(self.depth, f"loop of {self.func.name}")
        if self.func not in self.of_loops:
            self.of_loops[self.func] = self.assignments(self.func)
        label.assigned = self.of_loops[self.func][self.pc]
        label.head = head
        n = label.params
        args = [self.locals[i] for i in label.assigned[0]] + [self.globals[i] for i in label.assigned[1]]
        args += self.stack[len(self.stack) - n:] if n else []
        g.at.term = ("jmp", Edge(head, args))
        g.at = head
        for i in label.assigned[0]:
            self.locals[i] = g.param(head, self.ones_of_type(self.func.locals[i]))
        for i in label.assigned[1]:
            self.globals[i] = g.param(head, self.ones_of_type(self.module.globals[i][0]))
        for i in range(n):
            self.stack[len(self.stack) - n + i] = g.param(head, self.ones_of_type(label.ins.a[0][i]))

    def edge_to(self, label):
        """A new edge to a label with what is known here; its block's arguments may come later."""
        if label.kind == "loop":
            n = label.params
            args = [self.locals[i] for i in label.assigned[0]] + [self.globals[i] for i in label.assigned[1]]
            return Edge(label.head, args + (self.stack[len(self.stack) - n:] if n else []))
        n = len(label.results)
        edge = Edge(None)
        label.edges.append((edge, list(self.locals), list(self.globals), self.stack[len(self.stack) - n:] if n else []))
        return edge

    def branch(self, label):
        self.g.at.term = ("jmp", self.edge_to(label))
        self.g.at = None

    def leave(self, label):
        """Jumps to the end of the construct (for a loop, too: its end, not its head)."""
        n = len(label.results)
        edge = Edge(None)
        label.edges.append((edge, list(self.locals), list(self.globals), self.stack[len(self.stack) - n:] if n else []))
        self.g.at.term = ("jmp", edge)
        self.g.at = None

    def join(self, label):
        g = self.g
        del self.stack[label.height:]
        if not label.edges:
            g.at = None
            return
        block = g.block(self.depth, f"after {label.kind} of {self.func.name}")
        for edge, *_ in label.edges:
            edge.to = block
        in_function = label.kind == "function"

        def merged(rows, kinds):
            words = list(rows[0])
            unlike = {i for row in rows[1:] for i, (x, y) in enumerate(zip(words, row))
                      if x is not y and not (isinstance(x, int) and x == y)}
            for i in sorted(unlike):
                words[i] = g.param(block, self.ones_of_type(kinds[i]))
                for (edge, *_), row in zip(label.edges, rows):
                    edge.args.append(row[i])
            return words

        if not in_function:
            self.locals = merged([e[1] for e in label.edges], self.func.locals)
        self.globals = merged([e[2] for e in label.edges], [kind for kind, *_ in self.module.globals])
        self.stack += merged([e[3] for e in label.edges], label.results)
        g.at = block
