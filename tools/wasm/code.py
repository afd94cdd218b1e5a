"""The body of a function: decoded and validated in one pass, by the algorithm in the standard's appendix."""
from .opcodes import BULK, CONSTANTS, FUNCREF, I32, LOADS, NUMBERS, NUMERIC, STORES, TYPE_NAMES, V128

# The hint of an access of 8 bytes that is aligned as it can be.
MOST_LOCALS, MOST_ALIGN = 50_000, 3
INVALID = "the module is not valid: compile and link it again"
ANY = None      # the type of a value in unreachable code, as after a jump


class Instr:
    """An instruction: its offset, its name and its immediates. For a block, `match` is the number of its end, and `els`
    that of its else, if there is one. For an else, `match` is the number of its end."""
    __slots__ = ("at", "op", "a", "b", "match", "els")

    def __init__(self, at, op, a=None, b=None):
        self.at, self.op, self.a, self.b, self.match, self.els = at, op, a, b, None, None


class Frame:
    def __init__(self, op, starts, ends, height, instr):
        self.op, self.starts, self.ends, self.height, self.instr, self.dead = op, starts, ends, height, instr, False

    def label(self):
        return self.starts if self.op == "loop" else self.ends


class Decoder:
    """Decodes one body: `run` gives the instructions, `locals` the types of parameters and locals."""

    def __init__(self, module, func, data):
        self.module, self.func, self.data = module, func, data
        self.locals, self.body, self.types, self.frames = list(func.params), [], [], []
        self.at = data.at

    def wrong(self, what):
        self.data.refuse(what, self.at, INVALID)

    # The stack of types
    def push(self, *kinds):
        self.types += kinds

    def pop(self, wanted=ANY):
        frame = self.frames[-1]
        if len(self.types) == frame.height:
            if not frame.dead:
                self.wrong("takes a value from an empty stack")
            return wanted
        got = self.types.pop()
        if got != wanted and got is not ANY and wanted is not ANY:
            self.wrong(f"expects {TYPE_NAMES.get(wanted, 'a type')} but finds {TYPE_NAMES.get(got, 'another')}")
        return wanted if got is ANY else got

    def take(self, kinds):
        for kind in reversed(kinds):
            self.pop(kind)

    def dead(self):
        frame = self.frames[-1]
        del self.types[frame.height:]
        frame.dead = True

    def frame(self, depth):
        if depth >= len(self.frames):
            self.wrong(f"branches {depth} blocks out, but there are {len(self.frames)}")
        return self.frames[-1 - depth]

    def item(self, what, items, index):
        if index >= len(items):
            self.wrong(f"refers to {what} {index}, but there are {len(items)}")
        return items[index]

    # Decoding
    def run(self):
        data = self.data
        for _ in range(data.u()):
            self.at = data.at
            n, kind = data.u(), data.byte()
            if kind not in TYPE_NAMES:
                self.wrong(f"a local of the unknown type 0x{kind:x}")
            if len(self.locals) + n > MOST_LOCALS:
                data.refuse(f"more than {MOST_LOCALS} locals", self.at, "split the function")
            self.locals += [kind] * n
        self.frames.append(Frame("function", (), self.func.results, 0, None))
        while self.frames:
            self.at = data.at
            self.instruction(data.byte())
        if data.at != data.end:
            self.at = data.at
            self.wrong("code after the end of the function")
        return self.body

    def add(self, op, a=None, b=None):
        instr = Instr(self.at, op, a, b)
        self.body.append(instr)
        return instr

    def instruction(self, code):
        data = self.data
        if code == 0xFC:
            code = 0xFC00 + data.u()
        if code in NUMERIC:
            name, bits, takes, gives = NUMERIC[code]
            self.take(takes)
            self.push(gives)
            self.add("op", name, bits)
        elif code in LOADS or code in STORES:
            self.access(code)
        elif code in CONSTANTS:
            op, kind = CONSTANTS[code]
            word = data.s(32) & 0xFFFFFFFF if code == 0x41 else data.s(64) & 0xFFFFFFFFFFFFFFFF if code == 0x42 else \
                int.from_bytes(data.take(4 if code == 0x43 else 8), "little")
            self.push(kind)
            self.add(op, word)
        elif code in CONTROL:
            CONTROL[code](self, code)
        elif code >= 0xFC00:
            self.bulk(code - 0xFC00)
        elif code in (0xFD, 0xFE):
            data.refuse("a vector or atomic instruction", self.at, "compile without -msimd128 and -matomics")
        else:
            data.refuse(f"an unknown instruction (0x{code:02x})", self.at, INVALID)

    def access(self, code):
        align, offset = self.data.u(), self.data.u()
        form = LOADS.get(code) or STORES[code]
        self.needs_memory()
        if align > MOST_ALIGN or 8 << align > form[1]:
            self.wrong("an alignment larger than the access")
        if code in LOADS:
            self.pop(I32)
            self.push(form[0])
        else:
            self.pop(form[0])
            self.pop(I32)
        self.add("load" if code in LOADS else "store", form, (align, offset))

    def needs_memory(self):
        if not self.module.has_memory:
            self.wrong("an access to memory, but the module has none")

    def variable(self, code):
        index = self.data.u()
        if code <= 0x22:
            kind = self.item("local", self.locals, index)
        else:
            kind, mutable, _ = self.item("global", self.module.globals, index)
            if code == 0x24 and not mutable:
                self.wrong(f"sets global {index}, which is constant")
        if code in (0x21, 0x22, 0x24):
            self.pop(kind)
        if code in (0x20, 0x22, 0x23):
            self.push(kind)
        self.add(("local.get", "local.set", "local.tee", "global.get", "global.set")[code - 0x20], index)

    def block_type(self):
        at = self.data.at
        first = self.data.byte()
        if first == 0x40:
            return (), ()
        if first in TYPE_NAMES:
            return (), (first,)
        self.data.at = at
        index = self.data.s(33)
        if index < 0:
            self.wrong("a block of an unknown type")
        return self.item("type", self.module.types, index)

    def begin(self, code):
        op = {2: "block", 3: "loop", 4: "if"}[code]
        starts, ends = self.block_type()
        if op == "if":
            self.pop(I32)
        self.take(starts)
        if len(self.frames) > 5000:
            self.wrong("blocks nest more than 5000 deep")
        self.frames.append(Frame(op, starts, ends, len(self.types), self.add(op, (starts, ends))))
        self.push(*starts)

    def close(self):
        frame = self.frames[-1]
        self.take(frame.ends)
        if len(self.types) != frame.height:
            self.wrong("leaves values behind at the end of a block")
        return self.frames.pop()

    def els(self, _):
        if self.frames[-1].op != "if":
            self.wrong("an else without an if")
        frame = self.close()
        frame.instr.els = len(self.body)
        self.add("else")
        self.frames.append(Frame("else", frame.starts, frame.ends, len(self.types), frame.instr))
        self.push(*frame.starts)

    def end(self, _):
        frame = self.close()
        if frame.op == "if" and frame.starts != frame.ends:
            self.wrong("an if without an else must return the types that it takes")
        if frame.instr is not None:
            frame.instr.match = len(self.body)
            if frame.instr.els is not None:
                self.body[frame.instr.els].match = len(self.body)
        self.push(*frame.ends)
        self.add("end")

    def branch(self, code):
        if code == 0x0E:
            return self.branch_table()
        depth = self.data.u()
        if code == 0x0D:
            self.pop(I32)
        label = self.frame(depth).label()
        self.take(label)
        if code == 0x0C:
            self.dead()
        else:
            self.push(*label)
        return self.add("br" if code == 0x0C else "br_if", depth)

    def branch_table(self):
        depths = [self.data.u() for _ in range(self.data.u())]
        last = self.data.u()
        self.pop(I32)
        label = self.frame(last).label()
        for depth in depths:
            other = self.frame(depth).label()
            if len(other) != len(label):
                self.wrong("the targets of a br_table differ in type")
            kept = [self.pop(kind) for kind in reversed(other)]
            self.push(*reversed(kept))
        self.take(label)
        self.add("br_table", depths, last)
        self.dead()

    def leave(self, code):
        if code == 0x0F:
            self.take(self.func.results)
        self.add("return" if code == 0x0F else "unreachable")
        self.dead()

    def call(self, code):
        index = self.data.u()
        if code == 0x10:
            func = self.item("function", self.module.funcs, index)
            params, results = func.params, func.results
            self.add("call", index)
        else:
            params, results = self.item("type", self.module.types, index)
            table = self.data.u()
            if self.item("table", self.module.tables, table)[0] != FUNCREF:
                self.wrong("an indirect call through a table without functions")
            self.pop(I32)
            self.add("call_indirect", (params, results), table)
        self.take(params)
        self.push(*results)

    def drop(self, _):
        self.pop()
        self.add("drop")

    def select(self, code):
        if code == 0x1C:
            if self.data.u() != 1:
                self.wrong("a select of more than one type")
            kind = self.data.byte()
            self.pop(I32)
            self.take((kind, kind))
            if kind not in TYPE_NAMES:
                self.wrong("a select of an unknown type")
        else:
            self.pop(I32)
            kind = self.pop(self.pop())
            if kind not in (*NUMBERS, ANY, V128):
                self.wrong("a select of references without their type")
        self.push(kind)
        self.add("select")

    def size(self, code):
        if self.data.byte():
            self.wrong("a memory other than 0")
        self.needs_memory()
        if code == 0x40:
            self.pop(I32)
        self.push(I32)
        self.add("memory.size" if code == 0x3F else "memory.grow")

    def bulk(self, sub):
        if 12 <= sub <= 17:
            self.data.refuse(f"an instruction on tables (0xfc {sub})", self.at, "compile without -mreference-types")
        if sub not in BULK:
            self.data.refuse(f"an unknown instruction (0xfc {sub})", self.at, INVALID)
        index = None
        if sub in (8, 9):
            index = self.data.u()
            if self.module.data_count is None:
                self.wrong("uses a data segment, but the module has no data count section")
            if index >= self.module.data_count:
                self.wrong(f"refers to data segment {index}, but there are {self.module.data_count}")
        for _ in range({8: 1, 9: 0, 10: 2, 11: 1}[sub]):
            if self.data.byte():
                self.wrong("a memory other than 0")
        if sub != 9:
            self.needs_memory()
            self.take((I32, I32, I32))
        self.add(BULK[sub], index)

    def reference(self, code):
        name = {0x25: "table.get", 0x26: "table.set", 0xD0: "ref.null", 0xD1: "ref.is_null", 0xD2: "ref.func"}[code]
        self.data.refuse(f"an instruction on references ({name})", self.at, "compile without -mreference-types")

    def nop(self, _):
        self.add("nop")


CONTROL = {0x00: Decoder.leave, 0x01: Decoder.nop, 0x05: Decoder.els, 0x0B: Decoder.end, 0x0F: Decoder.leave,
           0x1A: Decoder.drop}
CONTROL.update(dict.fromkeys((0x02, 0x03, 0x04), Decoder.begin))
CONTROL.update(dict.fromkeys((0x0C, 0x0D, 0x0E), Decoder.branch))
CONTROL.update(dict.fromkeys((0x10, 0x11), Decoder.call))
CONTROL.update(dict.fromkeys((0x1B, 0x1C), Decoder.select))
CONTROL.update(dict.fromkeys(range(0x20, 0x25), Decoder.variable))
CONTROL.update(dict.fromkeys((0x3F, 0x40), Decoder.size))
CONTROL.update(dict.fromkeys((0x25, 0x26, 0xD0, 0xD1, 0xD2), Decoder.reference))
