"""Pass 2b: linear memory in cells of 8 bytes. The cell of address A has the number (A >> 3) modulo the length,
so no base is subtracted; if the length is a power of two, the high bits of an address may even be wrong."""
import re

from .ir import Edge
from .opcodes import bits_of
from .refused import Refused
from .traps import MISALIGNED, OUTSIDE
from .words import M64, smear

MOST_CELLS = 1024


class Memory:
    def __init__(self, low, high, symbols, segments, stack=None, padded=True):
        self.low, self.high = low & ~7, (high + 7) & ~7
        need = self.need = max((self.high - self.low) // 8, 1)
        self.length = 1 << (need - 1).bit_length() if padded else need
        self.symbols, self.stack = symbols, stack
        self.words = [0] * self.length if need <= MOST_CELLS else []
        for at, data in ((s.at, s.data) for s in segments if s.at is not None and self.words):
            for i, byte in enumerate(data):
                if byte or self.low <= at + i < self.high:
                    if not self.low <= at + i < self.high:
                        raise Refused(f"data at 0x{at + i:x} is outside the memory from 0x{low:x} to 0x{high:x}",
                                      "use --memory LO:HI")
                    self.words[self.cell(at + i)] |= byte << 8 * ((at + i) & 7)

    def test_size(self):
        """Called once the code is known to be translatable, so that errors in the code are reported first."""
        if self.need > MOST_CELLS:
            raise Refused(f"the memory from 0x{self.low:x} to 0x{self.high:x} takes {self.need} cells, more than "
                          f"{MOST_CELLS}", "use less data, a smaller -Wl,-z,stack-size=, or use --memory LO:HI")

    def cell(self, address):
        return (address >> 3) % self.length

    def address_of(self, k):
        """The address of the 8 bytes of a cell, or None for padding."""
        word = (self.low >> 3) + (k - (self.low >> 3)) % self.length
        return 8 * word if 8 * word < self.high else None

    def names(self):
        """A name for each cell: its symbol's, with the word's number in it; else mem[i], counted from the lowest."""
        first, used, names = self.low >> 3, set(), [None] * self.length
        for k in range(self.length):
            word = first + k
            found = [s for s in self.symbols if s.at < 8 * word + 8 and s.at + s.size > 8 * word]
            name = None
            if found:
                parts = []
                for s in found[:4]:
                    clean = re.sub(r"[^A-Za-z0-9_]", "_", s.name)
                    clean = clean if re.match(r"[A-Za-z_]", clean) else "_" + clean
                    words = (s.at + s.size - 1) // 8 - s.at // 8 + 1
                    nth = word - s.at // 8
                    parts.append(clean + (f"[{nth}]" if words > 1 and (s.sized or nth) else ""))
                name = "_".join(parts) if sum(map(len, parts)) + len(parts) <= 40 else None
            if name is None or name in used:
                name = f"mem[{k}]" if 8 * word < self.high else f"unused[{k}]"
                if self.stack and self.stack[0] <= 8 * word < self.stack[1]:
                    name = f"stack[{word - (self.stack[0] + 7) // 8}]"
            used.add(name)
            names[word % self.length] = name
        return names


def span(x, depth=8):
    """The smallest and the largest word that a value may be."""
    if isinstance(x, int):
        return x, x
    least, most = 0, smear(x.ones)
    if depth and x.op in ("add", "mul", "shl", "shr", "and"):
        (a, b), (c, d) = span(x.a, depth - 1), span(x.b, depth - 1)
        if x.op == "add" and b + d <= M64:
            least, most = a + c, min(most, b + d)
        elif x.op == "mul" and b * d <= M64:
            least, most = a * c, min(most, b * d)
        elif x.op == "shl" and d < 64 and b << d <= M64:
            least, most = a << c, min(most, b << d)
        elif x.op == "shr":
            least, most = a >> min(d, 64), min(most, b >> min(c, 64))
        elif x.op == "and":
            most = min(most, b, d)
    return least, most


class Access:
    """Mixed into the builder: loads and stores."""

    def effective(self, base, offset, size, align, at):
        """The address of an access. An access outside the memory traps, and so does one that is not aligned as its hint
        says."""
        address, memory = self.mk("add", base, offset), self.memory
        if isinstance(address, int):
            if not memory.low <= address <= memory.high - size // 8:
                if not self.checked:
                    self.refuse(at, f"an access to address 0x{address:x}, outside the memory from 0x{memory.low:x} to "
                                f"0x{memory.high:x}", "use --memory LO:HI, or correct the program")
                self.trap(at, OUTSIDE)
                return memory.low
        elif self.checked:
            if not self.is_inside(address, size):
                inside = self.mk("ltu", self.mk("sub", address, memory.low), memory.high - memory.low - size // 8 + 1)
                self.trap_if_zero(inside, at, OUTSIDE)
            aligned = self.mk("eq", self.mk("and", address, (1 << align) - 1), 0)
            self.trap_if_zero(aligned, at, MISALIGNED)
        return address

    def is_inside(self, address, size):
        least, most = span(address)
        return self.memory.low <= least and most + size // 8 <= self.memory.high

    @staticmethod
    def is_word(address, size, align):
        """Whether an access covers a whole cell."""
        return size == 64 and (not address & 7 if isinstance(address, int) else align == 3)

    def at_word(self, address, ahead=0):
        index = self.mk("shr", address, 3)
        if ahead:
            index = self.mk("add", index, ahead)
        return self.g.address(index, self.memory.length)

    def load(self, base, form, align, offset, at):
        kind, size, is_signed = form
        bits = bits_of(kind)
        mk, g = self.mk, self.g
        address = self.effective(base, offset, size, align, at)
        word = g.load(self.at_word(address))
        if self.is_word(address, size, align):
            return word
        if isinstance(address, int):
            shift = 8 * (address & 7)
            value = mk("shr", word, shift)
            if shift + size > 64:
                value = mk("or", value, mk("shl", g.load(self.at_word(address, 1)), 64 - shift))
        else:
            shift = self.shift_of(address, align, size)
            value = mk("shr", word, shift)
            if 8 << align < size:
                value = mk("or", value, mk("shl", g.load(self.at_word(address, 1)), mk("sub", 64, shift)))
        if size < 64:
            value = mk("and", value, (1 << size) - 1)
        return self.extended(value, size, bits) if is_signed else value

    def get_byte(self, address):
        """A byte that is known to exist."""
        place = self.mk("shl", self.mk("and", address, 7), 3)
        return self.mk("and", self.mk("shr", self.g.load(self.at_word(address)), place), 255)

    def put_byte(self, address, byte):
        place = self.mk("shl", self.mk("and", address, 7), 3)
        self.put_high(self.at_word(address), byte, 255, place)

    def shift_of(self, address, align, size):
        """8 times the place in the cell. The alignment hint has been tested."""
        low = 7 & -(1 << min(align, (size // 8).bit_length() - 1))
        return self.mk("shl", self.mk("and", address, low), 3)

    def store(self, base, value, form, align, offset, at):
        _, size = form
        mk, g = self.mk, self.g
        address = self.effective(base, offset, size, align, at)
        if self.is_word(address, size, align):
            g.store(self.at_word(address), value)
            return
        mask = (1 << size) - 1
        shift = 8 * (address & 7) if isinstance(address, int) else self.shift_of(address, align, size)
        cell = self.at_word(address)
        if isinstance(shift, int) and shift + size > 64:
            self.put_high(cell, value, mask, shift)
            self.put_low(self.at_word(address, 1), value, mask, mk("sub", 64, shift))
        elif isinstance(shift, int) or 8 << align >= size:
            word = g.load(cell)
            if isinstance(shift, int):
                value = mk("shl", mk("and", value, mask), shift) if shift + size < 64 else mk("shl", value, shift)
                g.store(cell, mk("or", mk("and", word, M64 & ~(mask << shift)), value))
            else:
                change = mk("and", mk("xor", mk("shr", word, shift), value), mask)
                g.store(cell, mk("xor", word, mk("shl", change, shift)))
        else:
            self.put_high(cell, value, mask, shift)
            two, on = g.block(self.depth), g.block(self.depth)
            two.cse = dict(g.at.cse)
            on.cse = dict(g.at.cse)
            inside = mk("ltu", shift, 65 - size)
            g.at.term = ("bz", inside, Edge(two), Edge(on))
            g.at = two
            self.put_low(self.at_word(address, 1), value, mask, mk("sub", 64, shift))
            g.at.term = ("jmp", Edge(on))
            g.at = on

    def put_high(self, cell, value, mask, shift):
        """The part of a store that is in its first cell."""
        mk, word = self.mk, self.g.load(cell)
        change = mk("and", mk("xor", mk("shr", word, shift), value), mask)
        self.g.store(cell, mk("xor", word, mk("shl", change, shift)))

    def put_low(self, cell, value, mask, back):
        """The part in the next cell: the value without its low `back` bits."""
        mk, word = self.mk, self.g.load(cell)
        kept = mk("and", word, mk("xor", mk("shr", mask, back), M64))
        self.g.store(cell, mk("or", kept, mk("shr", mk("and", value, mask), back)))
