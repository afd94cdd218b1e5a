"""Pass 2e: memory.fill and memory.copy, byte by byte, and memory.grow, which never succeeds."""
from .ir import Edge
from .traps import OUTSIDE
from .words import M32


class Bulk:
    """Mixed into the builder."""

    def memory_size(self, _):
        self.stack.append(self.module.pages)

    def memory_grow(self, _):
        self.stack.append(self.choose(self.stack.pop(), M32, self.module.pages))

    def memory_fill(self, ins):
        count, byte, to = self.stack.pop(), self.stack.pop(), self.stack.pop()
        self.test_span(to, count, ins.at)
        self.each(count, "memory.fill", lambda i: self.put_byte(self.mk("add", to, i), byte))

    def memory_copy(self, ins):
        """Upwards if the bytes move down or stay, otherwise downwards, so that none is lost."""
        count, start, to = self.stack.pop(), self.stack.pop(), self.stack.pop()
        self.test_span(to, count, ins.at)
        self.test_span(start, count, ins.at)
        mk, g = self.mk, self.g
        up, down, on = g.block(self.depth), g.block(self.depth), g.block(self.depth)
        g.at.term = ("bz", mk("ltu", start, to), Edge(up), Edge(down))

        def move(i):
            self.put_byte(mk("add", to, i), self.get_byte(mk("add", start, i)))

        for block, place in ((up, lambda i: i), (down, lambda i: mk("sub", mk("sub", count, 1), i))):
            g.at = block
            self.each(count, "memory.copy", lambda i, place=place: move(place(i)))
            g.at.term = ("jmp", Edge(on))
        g.at = on

    def refuse_segment(self, ins):
        self.refuse(ins.at, f"{ins.op}: a passive data segment", "compile without -pthread and -mbulk-memory")

    def each(self, count, note, turn):
        """Does something for each number below `count`."""
        g, mk = self.g, self.mk
        head, body, on = g.block(self.depth + 1, note), g.block(self.depth + 1), g.block(self.depth)
        g.at.term = ("jmp", Edge(head, [0]))
        i = g.param(head)
        g.at = head
        head.term = ("bz", mk("ltu", i, count), Edge(on), Edge(body))
        g.at = body
        turn(i)
        g.at.term = ("jmp", Edge(head, [mk("add", i, 1)]))
        g.at = on

    def test_span(self, first, count, at):
        """Traps if the bytes are not all within the memory."""
        if not self.checked:
            return
        mk, memory, what = self.mk, self.memory, OUTSIDE
        size = memory.high - memory.low
        last = mk("add", first, count)
        self.trap_if_zero(mk("ltu", last, self.module.pages * 65536 + 1), at, what)
        some, on = self.g.block(self.depth), self.g.block(self.depth)
        if isinstance(count, int):
            if not count:
                return
            self.g.at.term = ("jmp", Edge(some))
        else:
            self.g.at.term = ("bz", count, Edge(on), Edge(some))
        self.g.at = some
        self.trap_if_zero(mk("ltu", count, size + 1), at, what)
        self.trap_if_zero(mk("ltu", mk("sub", first, memory.low), mk("sub", size + 1, count)), at, what)
        self.g.at.term = ("jmp", Edge(on))
        self.g.at = on
