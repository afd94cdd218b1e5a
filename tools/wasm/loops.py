"""Loops: their counters, and how often they can iterate."""
from .ir import Value
from .words import M32, M64, ones_of

TOPS = {1 << 31: M32, 1 << 63: M64}
FULL = (0, M64)


class Loop:
    """`steps`: for each counter what a turn adds to it, and the mask of its width; `tests`: for each edge on which
    the loop continues, its test, and whether the loop ends if that is 0; `own`: for each counter that a test
    compares with a bound, the range that follows."""

    def __init__(self, head, body, latches):
        self.head, self.body, self.latches = head, body, latches
        self.steps, self.tests, self.own = {}, {}, {}


def step_of(param, arg, width=M64):
    """What an argument adds to a parameter: (step, mask of its width), or None."""
    if isinstance(arg, int):
        return None
    if arg.op == "and" and arg.b == M32:
        arg, width = arg.a, M32
    if isinstance(arg, Value) and arg.op == "add" and arg.a is param and isinstance(arg.b, int):
        step = arg.b & width
        return step - width - 1 if step > width >> 1 else step, width
    return None


def find_loops(blocks, preds, idom):
    """The loops, by their heads: a loop's blocks reach a jump back to its head without passing the head."""
    found, number = {}, {b: i for i, b in enumerate(blocks)}
    for b in blocks:
        for e in b.edges():
            if number[e.to] > number[b]:
                continue
            up = b
            while up is not e.to and idom[up] is not up:
                up = idom[up]
            if up is not e.to:
                continue
            loop = found.setdefault(e.to, Loop(e.to, {e.to}, []))
            loop.latches.append((b, e))
            todo = [b]
            while todo:
                x = todo.pop()
                if x not in loop.body:
                    loop.body.add(x)
                    todo += [p for p, _ in preds[x]]
    return found


def dominates(a, b, idom):
    while b is not a and idom[b] is not b:
        b = idom[b]
    return b is a


def describe(loop, idom):
    """Finds the counters of a loop, and the tests that each iteration passes before it jumps back."""
    for i, p in enumerate(loop.head.params):
        steps = {step_of(p, e.args[i]) for _, e in loop.latches}
        if len(steps) == 1 and None not in steps:
            loop.steps[p] = steps.pop()
    block = loop.latches[0][0]
    while True:
        if block.term[0] == "bz" and all(dominates(block, latch, idom) for latch, _ in loop.latches):
            _, cond, zero, other = block.term
            if zero.to not in loop.body:
                loop.tests[other] = cond, True
            elif other.to not in loop.body:
                loop.tests[zero] = cond, False
        if block is loop.head:
            return
        block = idom[block]


class Counters:
    """Mixed into the ranges: `of` gives the range of a value, `at_edge` those of the arguments of an edge."""

    def start_of(self, loop, i):
        """The range of parameter i on entry to a loop."""
        ranges = [self.at_edge[e][i] for b, e in self.preds[loop.head] if b not in loop.body and e in self.at_edge]
        return (min(r[0] for r in ranges), max(r[1] for r in ranges)) if ranges else FULL

    def turns(self, loop):
        """The maximum number of iterations of a loop, or None."""
        loop.own = {}
        found = [self.turns_by(loop, cond, leaves) for cond, leaves in loop.tests.values()]
        return min((n for n in found if n is not None), default=None)

    def turns_by(self, loop, cond, leaves_at_zero):
        """Likewise, from a single test, which leaves the loop if its word is 0, or if it is not 0."""
        if isinstance(cond, int):
            return None
        while cond.op == "eq" and cond.b == 0 and ones_of(cond.a) == 1:
            cond, leaves_at_zero = cond.a, not leaves_at_zero
        if cond.op == "ltu":
            return self.turns_less(loop, cond.a, cond.b, leaves_at_zero)
        if cond.op == "eq" and not leaves_at_zero:
            return self.turns_equal(loop, cond.a, cond.b)
        if leaves_at_zero:
            if cond.op in ("xor", "sub") and isinstance(cond.b, int):
                return self.turns_equal(loop, cond.a, cond.b)
            return self.turns_equal(loop, cond, 0)
        return None

    def counter(self, loop, x):
        """x as a counter: the bounds of its first word, its step, the largest word of its width, its parameter, and how
        far ahead of that it is; or None."""
        if isinstance(x, int):
            return None
        ahead = 0
        if x not in loop.steps:
            y, mask = (x.a, M32) if x.op == "and" and x.b == M32 else (x, M64)
            if isinstance(y, int) or y.op != "add" or not isinstance(y.b, int) or y.a not in loop.steps:
                return None
            ahead = y.b & mask
            x, ahead = y.a, ahead if ahead <= mask >> 1 else ahead - mask - 1
        step, width = loop.steps[x]
        low, high = self.start_of(loop, loop.head.params.index(x))
        if high > width or low + ahead < 0 or high + ahead > width:
            return None
        return low + ahead, high + ahead, step, width, x, ahead

    def turns_equal(self, loop, x, goal):
        """The loop is left when x equals the goal. x must reach it, not pass it; it may wrap around once on the way."""
        low_goal, goal = self.of(goal)
        counted = self.counter(loop, x)
        if counted is None or low_goal != goal or goal > counted[3]:
            return None
        low, high, step, width = counted[:4]
        if step < 0:
            low, high, step, goal = -high, -low, -step, -goal
        if low <= goal < high or step == 0:
            return None
        if high > goal:
            goal += width + 1
        if step > 1 and (low != high or (goal - low) % step):
            return None
        return (goal - low) // step

    def turns_less(self, loop, a, b, while_less):
        """The loop continues while a < b, or while not a < b: one of the two counts up or down to the other."""
        top = next((x.b for x in (a, b) if not isinstance(x, int) and x.op == "xor" and x.b in TOPS), 0)
        if top:
            a, b = (x ^ top if isinstance(x, int) else x.a if x.op == "xor" and x.b == top else None for x in (a, b))
        for x, other, past, less in ((a, b, 0, while_less), (b, a, 1, not while_less)):
            counted = self.counter(loop, x) if x is not None and other is not None else None
            if counted is None or counted[1] >= (top or M64 + 1):
                continue
            low, high, step, width, p, ahead = counted
            (bound_low, bound), limit = self.of(other), top - 1 if top else width
            bound_low, bound = bound_low + past, bound + past       # continues while x < bound, or while x >= bound
            if bound > limit:
                continue
            if less and step > 0 and bound + step <= limit:
                loop.own[p] = low - ahead, max(high - ahead, bound - 1 - ahead + step)
                return max(0, -(-(bound - low) // step))
            if not less and step < 0 and bound_low + step >= (1 - top if top else 0):
                if bound_low - ahead + step >= 0:
                    loop.own[p] = min(low - ahead, bound_low - ahead + step), high - ahead
                return max(0, (high - bound_low) // -step + 1)
        return None

    def counts(self, loop, p, n):
        """The range of a counter for at most this many iterations, or None."""
        low, high = self.start_of(loop, loop.head.params.index(p))
        step, width = loop.steps[p]
        if n is None or high > width:
            return None
        low, high = (low, high + n * step) if step > 0 else (low + n * step, high)
        return (low, high) if low >= 0 and high <= width else None

    def take(self, edge, holds, cond, undo):
        """What is known on an edge of a test: the test, and how often its loop has iterated."""
        self.assume(cond, holds, undo)
        loop = self.tested.get(edge)
        if loop:
            n = self.turns_by(loop, *loop.tests[edge])
            for p in loop.steps if n else ():
                counted = self.counts(loop, p, n - 1)
                if counted:
                    self.learn(p, *counted, undo)
