"""A module: its sections, read and validated; the bodies of functions are decoded and validated with them."""
from .binary import Bytes
from .code import INVALID, Decoder
from .opcodes import CONSTANTS, EXTERNREF, FUNCREF, I32, TYPE_NAMES
from .refused import Refused, plain

IMPORTS = {0: ("function", "define it in C, and link without --allow-undefined"),
           1: ("table", "define it in the module"), 2: ("memory", "link without --import-memory"),
           3: ("global", "define it in the module")}
ORDER = {kind: i for i, kind in enumerate((1, 2, 3, 4, 5, 6, 7, 8, 9, 12, 10, 11))}
MOST_PAGES = 65536


class Func:
    """A function: the types that it takes and returns, its instructions (`body`), and the types of all its locals
    (`locals`)."""

    def __init__(self, module, index, params, results):
        self.module, self.index, self.params, self.results = module, index, params, results
        self.body, self.locals, self.at = [], list(params), 0

    @property
    def name(self):
        """The name as one printable word: names in modules may contain any characters."""
        return plain(self.module.func_names.get(self.index, f"func[{self.index}]"))


class Segment:
    """Data: its place (None: it waits for memory.init), and its bytes."""

    def __init__(self, at, data, offset):
        self.at, self.data, self.offset = at, data, offset


class Module:
    def __init__(self, data):
        self.types, self.funcs, self.tables, self.globals, self.exports = [], [], [], [], {}
        self.segments, self.elements, self.start, self.data_count = [], [], None, None
        self.func_names, self.global_names, self.linking, self.by_name = {}, {}, None, None
        self.has_memory, self.pages, self.bodies = False, 0, []
        if data[:8] != b"\0asm\1\0\0\0":
            instead = ("this is its text: make a module with wat2wasm" if data.lstrip().startswith(b"(module") else
                       "give the output of wasm-ld; `talft-cc` takes C")
            raise Refused("is not a WebAssembly module of version 1", instead, offset=0)
        reader, last = Bytes(data, 8), -1
        while reader.at < reader.end:
            at, kind = reader.at, reader.byte()
            part = reader.part(reader.u())
            if kind:
                if ORDER.get(kind, -1) <= last:
                    reader.refuse(f"section {kind} is unknown, repeated or out of order", at)
                last = ORDER[kind]
            self.section(kind, part)
        self.finish(reader)

    def section(self, kind, part):
        if kind == 0:
            self.custom(part)
            return
        if kind in (8, 12):
            setattr(self, "start" if kind == 8 else "data_count", part.u())
        else:
            read = {1: self.type_, 2: self.import_, 3: self.func, 4: self.table, 5: self.memory, 6: self.global_,
                    7: self.export, 9: self.element, 10: self.code, 11: self.segment}[kind]
            count = part.u()
            if kind == 10 and count != len(self.funcs):
                part.refuse(f"{len(self.funcs)} functions and {count} bodies")
            for i in range(count):
                read(part, i)
        if part.at != part.end:
            part.refuse("bytes after the last record of a section")

    # The sections
    def type_(self, part, _):
        if part.byte() != 0x60:
            part.refuse("a type that is not a function type", part.at - 1)
        self.types.append(tuple(tuple(self.kind(part) for _ in range(part.u())) for _ in range(2)))

    @staticmethod
    def kind(part, among=TYPE_NAMES):
        kind = part.byte()
        if kind not in among:
            part.refuse(f"the unknown type 0x{kind:x}", part.at - 1)
        return kind

    def import_(self, part, _):
        here = part.at
        module, name, what = part.name(), part.name(), part.byte()
        if what not in IMPORTS:
            part.refuse("an import of an unknown kind", here)
        if name == "__linear_memory":
            raise Refused("is not linked", "use wasm-ld or `talft-cc`")
        raise Refused(f"imports the {IMPORTS[what][0]} {plain(module + '.' + name)}", IMPORTS[what][1], offset=here)

    def func(self, part, i):
        at, index = part.at, part.u()
        if index >= len(self.types):
            part.refuse(f"refers to type {index}, but there are {len(self.types)}", at)
        self.funcs.append(Func(self, i, *self.types[index]))

    def limits(self, part, most):
        at, flags = part.at, part.byte()
        if flags > 1:
            part.refuse("a shared or 64-bit memory", at, "compile for wasm32 without threads")
        least = part.u()
        greatest = part.u() if flags else most
        if not least <= greatest <= most:
            part.refuse("invalid limits", at)
        return least

    def table(self, part, _):
        kind = self.kind(part, (FUNCREF, EXTERNREF))
        self.tables.append((kind, self.limits(part, 0xFFFFFFFF)))

    def memory(self, part, i):
        if i:
            part.refuse("more than one memory")
        self.pages, self.has_memory = self.limits(part, MOST_PAGES), True

    def global_(self, part, _):
        kind, mutable = self.kind(part), part.byte()
        if mutable > 1:
            part.refuse("a global that is neither variable nor constant", part.at - 1)
        self.globals.append((kind, mutable, self.constant(part, kind)))

    def export(self, part, _):
        at = part.at
        name, what, index = part.name(), part.byte(), part.u()
        if what > 3 or index >= (len(self.funcs), len(self.tables), int(self.has_memory), len(self.globals))[what]:
            part.refuse("an export of something that is not defined", at)
        if name in self.exports:
            part.refuse("two exports with the same name", at)
        self.exports[name] = (what, index)

    def element(self, part, _):
        """Active segments of functions, by their numbers; others are read in their own form and kept as entries that
        cannot be called."""
        at, flags = part.at, part.u()
        if flags > 7:
            part.refuse("an element segment of an unknown kind", at)
        active = not flags & 1
        table = part.u() if active and flags & 2 else 0
        if active and table >= len(self.tables):
            part.refuse(f"refers to table {table}, but there are {len(self.tables)}", at)
        offset = self.constant(part, I32) if active else None
        if flags & 3:
            kind = part.byte()
            if kind != (FUNCREF if flags & 4 else 0) and not (flags & 4 and kind == EXTERNREF):
                part.refuse("elements of an unknown kind", part.at - 1)
        count = part.u()
        items = [self.constant(part, FUNCREF) if flags & 4 else part.u() for _ in range(count)]
        if any(i is not None and i >= len(self.funcs) for i in items):
            part.refuse("an element that is not a function", at)
        if active:
            if offset + count > self.tables[table][1]:
                part.refuse("elements outside their table", at)
            self.elements.append((table, offset, items))

    def code(self, part, i):
        func = self.funcs[i]
        size = part.u()
        func.at = part.at
        body = part.part(size)
        body.func = func
        self.bodies.append((func, body))

    def segment(self, part, _):
        here, flag = part.at, part.u()
        if flag > 2:
            part.refuse("a data segment of an unknown kind", here)
        if flag == 2 and part.u():
            part.refuse("data for a memory other than 0", here)
        if flag != 1 and not self.has_memory:
            part.refuse("data, but the module has no memory", here)
        at = None if flag == 1 else self.constant(part, I32)
        data = part.take(part.u())
        if at is not None and at + len(data) > self.pages * 65536:
            part.refuse("data outside the memory", here)
        self.segments.append(Segment(at, data, here))

    def constant(self, part, kind):
        """The word of an initial value; a function's is its number, and None is null."""
        here, code = part.at, part.byte()
        value, got = None, None
        if code in CONSTANTS:
            got = CONSTANTS[code][1]
            value = part.s(32) & 0xFFFFFFFF if code == 0x41 else part.s(64) & 0xFFFFFFFFFFFFFFFF if code == 0x42 else \
                int.from_bytes(part.take(4 if code == 0x43 else 8), "little")
        elif code == 0xD0:
            got = self.kind(part, (FUNCREF, EXTERNREF))
        elif code == 0xD2:
            value, got = part.u(), FUNCREF
            if value >= len(self.funcs):
                part.refuse("an initial value that is not a function", here)
        else:
            part.refuse("an initial value that is not a constant", here, INVALID)
        if got != kind or part.byte() != 0x0B:
            part.refuse("an initial value of another type, or of several instructions", here, INVALID)
        return value

    def finish(self, reader):
        """The checks that need everything: the number of bodies, the start function, and each body."""
        if len(self.bodies) != len(self.funcs):
            reader.refuse(f"{len(self.funcs)} functions and {len(self.bodies)} bodies")
        if self.data_count not in (None, len(self.segments)):
            reader.refuse(f"{self.data_count} data segments are declared, but there are {len(self.segments)}")
        if self.start is not None and (self.start >= len(self.funcs) or self.funcs[self.start].params
                                       or self.funcs[self.start].results):
            reader.refuse("a start function that is not defined, or that takes or returns values")
        for name, (what, index) in self.exports.items():
            if what == 0:
                self.func_names.setdefault(index, name)
        for func, body in self.bodies:
            body.func = func
            decoder = Decoder(self, func, body)
            func.body, func.locals = decoder.run(), decoder.locals

    # Names
    def custom(self, part):
        name = part.name()
        if name == "linking":
            self.linking = part
        elif name == "name":
            try:
                self.names(part)
            except Refused:
                pass        # names are only for people: a module needs none

    def names(self, part):
        while part.at < part.end:
            sub = part.byte()
            inner = part.part(part.u())
            if sub in (1, 7):
                table = self.func_names if sub == 1 else self.global_names
                for _ in range(inner.u()):
                    index = inner.u()
                    table[index] = inner.name()
