"""Pass 2d: calls. Functions that are short or called once are inlined; long ones are shared; an indirect call is a
tree of comparisons with the table's numbers, followed by a direct call."""
from .floats import builtin
from .ir import Edge, Graph
from .opcodes import FUNCREF
from .traps import INDIRECT

MOST_NESTED = 200
LONG = 400      # a function is shared if its copies after the first would together have at least this length


class Shared:
    """A function that is compiled once: its graph, and the globals that it takes and returns besides its own values."""

    def __init__(self, func, taken, given):
        self.func, self.taken, self.given, self.graph = func, taken, given, None
        self.circle = ()        # the functions through which it calls itself


def callees(module, func):
    """The functions that a function may call, one for each call."""
    found = []
    for ins in func.body:
        if ins.op == "call":
            found.append(module.funcs[ins.a])
        elif ins.op == "call_indirect":
            found += sorted({f for f in table_of(module, ins.b).values() if fits(f, ins.a)}, key=lambda f: f.index)
        elif ins.op == "op" and "." in ins.a:
            found += [f for f in [builtin(module, ins.a)] if f]
    return found


def table_of(module, table):
    """The functions of a table, by index."""
    found = {}
    if module.tables[table][0] == FUNCREF:
        for where, offset, items in module.elements:
            if where == table:
                found.update((offset + i, module.funcs[f]) for i, f in enumerate(items) if f is not None)
    return found


def fits(func, kind):
    return (tuple(func.params), tuple(func.results)) == kind


def reached(module, roots):
    """The reachable functions, each after those that it calls if possible."""
    order, seen, todo = [], set(), [(f, iter(callees(module, f))) for f in roots[:1]]
    rest = list(roots[1:])
    seen.update(f for f, _ in todo)
    while todo or rest:
        if not todo:
            f = rest.pop()
            if f not in seen:
                seen.add(f)
                todo.append((f, iter(callees(module, f))))
            continue
        func, calls = todo[-1]
        nxt = next((c for c in calls if c not in seen), None)
        if nxt is None:
            order.append(todo.pop()[0])
        else:
            seen.add(nxt)
            todo.append((nxt, iter(callees(module, nxt))))
    return order


class Calls:
    """Mixed into the builder."""

    def plan(self, roots):
        """Which functions are shared: those that call themselves, and those whose copies would be long."""
        module, sites, sizes = self.module, {}, {}
        order = reached(module, roots)
        for func in order:
            for callee in callees(module, func):
                sites[callee] = sites.get(callee, 0) + 1
        self.shared, self.effects = {}, self.find_effects(order)
        circles = self.find_circles(order)
        for func in order:
            inner = [c for c in callees(module, func) if c not in self.shared]
            size = sizes[func] = len(func.body) + sum(sizes.get(c, 0) for c in inner)
            if func in circles or (func not in roots and size * (sites.get(func, 0) - 1) >= LONG):
                taken, given = self.effects[func]
                self.shared[func] = Shared(func, sorted(taken | given), sorted(given))
                sizes[func] = 4
                self.shared[func].circle = circles.get(func, ())

    def find_effects(self, order):
        """The globals that each function reads, and those that it writes, directly or through calls."""
        effects = {f: ({i.a for i in f.body if i.op == "global.get"}, {i.a for i in f.body if i.op == "global.set"})
                   for f in order}
        changed = True
        while changed:
            changed = False
            for func in order:
                for callee in callees(self.module, func):
                    for mine, theirs in zip(effects[func], effects[callee]):
                        if not theirs <= mine:
                            mine |= theirs
                            changed = True
        return effects

    def find_circles(self, order):
        """The functions that call themselves, directly or through others: for each the set of those in a cycle with
        it."""
        reach = {f: set(callees(self.module, f)) for f in order}
        changed = True
        while changed:
            changed = False
            for func in order:
                more = set().union(*(reach[c] for c in reach[func])) - reach[func] if reach[func] else set()
                if more:
                    reach[func] |= more
                    changed = True
        return {f: {c for c in reach[f] if f in reach[c]} for f in order if f in reach[f]}

    def call(self, ins):
        func = self.module.funcs[ins.a]
        self.do_call(func, ins.at)

    def do_call(self, func, at):
        n = len(func.params)
        args = self.stack[len(self.stack) - n:]
        del self.stack[len(self.stack) - n:]
        self.stack += self.call_shared(func, args, at) if func in self.shared else self.inline(func, args, at)

    def call_shared(self, func, args, at):
        """A call as instructions: `put` for each value, `call`, and `get` for each that comes back."""
        shared, g = self.shared[func], self.g
        if shared.graph is None:
            shared.graph = Graph()
            self.waiting.append(shared)
        for i, x in enumerate(args + [self.globals[k] for k in shared.taken]):
            g.new("put", x, i)
        g.new("call").sub = shared
        g.at.known.clear()
        kinds = list(func.results) + [self.module.globals[k][0] for k in shared.given]
        got = [g.new("get", i) for i in range(len(kinds))]
        for value, kind in zip(got, kinds):
            value.ones = value.full = self.ones_of_type(kind)
        for k, value in zip(shared.given, got[len(func.results):]):
            self.globals[k] = value
        return got[:len(func.results)]

    def argument(self, entry, kind):
        value = self.g.param(entry, self.ones_of_type(kind))
        value.full = value.ones
        return value

    def build_shared(self, shared):
        """The graph of a shared function: it begins with its parameters, and ends with `put` and a return."""
        func, kinds = shared.func, [k for k, _, _ in self.module.globals]
        self.use(shared.graph)
        self.home, self.depth = shared, 0
        entry = self.g.entry = self.g.at = self.g.block(note=f"function {func.name}")
        args = [self.argument(entry, k) for k in func.params]
        self.globals = [None] * len(kinds)
        for k in shared.taken:
            self.globals[k] = self.argument(entry, kinds[k])
        results = self.inline(func, args)
        if self.g.at is not None:
            for i, x in enumerate(results + [self.globals[k] for k in shared.given]):
                self.g.new("put", x, i)
            self.g.at.term = ("ret", shared)

    def inline(self, func, args, at=None):
        if len(self.calls) > MOST_NESTED:
            self.refuse(at, f"calls nest more than {MOST_NESTED} deep", "shorten the chain of calls")
        outer = self.func, self.locals, self.stack, self.labels
        self.func = func
        self.calls.append(func.index)
        self.locals = list(args) + [0] * (len(func.locals) - len(args))
        self.stack, self.labels = [], []
        self.labels.append(self.label("function", (), func.results))
        self.run(func.body)
        results = self.stack
        self.calls.pop()
        self.func, self.locals, self.stack, self.labels = outer
        return results

    def call_indirect(self, ins):
        """Calls a function of a table: there is a direct call for each possible one; any other index traps."""
        index, stack = self.stack.pop(), self.stack
        table, (params, results) = table_of(self.module, ins.b), ins.a
        label = self.label("call", params, results)
        self.labels.append(label)
        top = max(table, default=-1) + 1
        runs = [(i, f if f is not None and fits(f, ins.a) else None) for i in range(top + 1) for f in [table.get(i)]]
        saved = list(self.globals), list(stack)

        def leaf(func):
            self.globals, self.stack = list(saved[0]), list(saved[1])
            if func is None:
                self.g.at.term = ("jmp", self.trap_edge(ins.at, INDIRECT))
                self.g.at = None
            else:
                self.do_call(func, ins.at)
                if self.g.at is not None:
                    self.leave(label)

        self.tree(index, runs, leaf)
        self.labels.pop()
        self.join(label)

    def tree(self, index, choices, leaf):
        """A tree of comparisons: `choices` are pairs of the first index and what is chosen from it on."""
        runs = []
        for i, choice in choices:
            if not runs or runs[-1][1] != choice:
                runs.append((i, choice))

        def part(low, high):
            if high - low == 1:
                leaf(runs[low][1])
                return
            middle = (low + high) // 2
            less = self.mk("ltu", index, runs[middle][0])
            left, right = (self.g.block(self.depth, heir_of=self.g.at) for _ in range(2))
            self.g.at.term = ("bz", less, Edge(right), Edge(left))
            self.g.at = left
            part(low, middle)
            self.g.at = right
            part(middle, high)

        part(0, len(runs))
