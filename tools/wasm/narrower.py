"""Runs a module up to the place where its object has trapped, and tells whether the object may trap there."""
import collections

from .interpreter import Interpreter, Trap
from .traps import FULL, MISALIGNED, OUTSIDE

# Where an object traps although its module need not. `low` and `high`: its memory is from one address up to the other;
# `shared`: the functions that are translated once; `circles`: for each recursive one its offset in the module and the
# functions that it and they call in turn; `frames`: how many of their calls may be nested. Functions are numbers.
Limits = collections.namedtuple("Limits", "low high shared circles frames")


class Narrower(Interpreter):
    """A module that also traps if the object's narrower limit is passed at this place: offset and kind of a trap."""

    def __init__(self, module, most, most_stores, limits, place):
        super().__init__(module, most, most_stores)
        self.limits, (self.at, self.what) = limits, place
        # The innermost function that the object shares, and how many frames are taken.
        self.home, self.frames = None, 0

    def load(self, at, size, bits):
        self.test(at, size)
        return super().load(at, size, bits)

    def store(self, at, word, size):
        self.test(at, size)
        super().store(at, word, size)

    def test(self, at, size):
        """Traps at an access that passes the limit."""
        instruction = self.place[1]
        if instruction.at != self.at:
            return
        if self.what == OUTSIDE and not self.limits.low <= at <= self.limits.high - size:
            raise Trap(OUTSIDE)
        if self.what == MISALIGNED and at % (1 << instruction.b):
            raise Trap(MISALIGNED)

    def bulk(self, op, a, stack):
        if self.what == OUTSIDE and self.place[1].at == self.at and op in (0xFC0A, 0xFC0B) and stack[-1]:
            size = self.limits.high - self.limits.low
            for first in stack[-3:-1] if op == 0xFC0A else stack[-3:-2]:
                if not 0 <= first - self.limits.low <= size - stack[-1]:
                    raise Trap(OUTSIDE)
        super().bulk(op, a, stack)

    def call(self, function, arguments):
        home, frames = self.home, self.frames
        start, circle = self.limits.circles.get(function.index, (None, ()))
        self.frames += home in circle
        if self.what == FULL and start == self.at and self.frames >= self.limits.frames:
            raise Trap(FULL)
        if function.index in self.limits.shared:
            self.home = function.index
        results = super().call(function, arguments)
        self.home, self.frames = home, frames
        return results
