"""Reads a WebAssembly module for the interpreter. The translator has its own reader, so a mistake in one of them shows."""
import collections

PAGE = 65536
SECTIONS = ("custom", "type", "import", "function", "table", "memory", "global", "export", "start", "element", "code",
            "data", "data count")
# An instruction: its opcode (0xFC00 + n for those with the prefix 0xFC), two operands, and its offset in the file.
Instruction = collections.namedtuple("Instruction", "op a b at")
Segment = collections.namedtuple("Segment", "active at items")


class Invalid(Exception):
    """Why the module cannot be read or run."""


class Bytes:
    """A part of a file that is read from front to back."""

    def __init__(self, data, at, end):
        self.data, self.at, self.end = data, at, end

    def take(self, count):
        if count > self.end - self.at:
            raise Invalid(f"offset {self.at:#x}: the module is truncated")
        self.at += count
        return self.data[self.at - count:self.at]

    def byte(self):
        return self.take(1)[0]

    def unsigned(self, bits=32):
        value, shift = 0, 0
        while True:
            part = self.byte()
            value |= (part & 127) << shift
            shift += 7
            if part < 128:
                break
            if shift >= bits:
                raise Invalid(f"offset {self.at:#x}: a number is too long")
        if value >> bits:
            raise Invalid(f"offset {self.at:#x}: a number is too large")
        return value

    def signed(self, bits):
        value, shift = 0, 0
        while True:
            part = self.byte()
            value |= (part & 127) << shift
            shift += 7
            if part < 128:
                return value - (1 << shift) if part & 64 else value
            if shift >= bits:
                raise Invalid(f"offset {self.at:#x}: a number is too long")

    def text(self):
        text = self.take(self.unsigned()).decode("utf-8", "replace")
        return "".join(letter if letter.isprintable() else "?" for letter in text)

    def many(self, read):
        return [read() for _ in range(self.unsigned())]

    def part(self, length):
        start = self.at
        self.take(length)
        return Bytes(self.data, start, self.at)


class Function:
    """A function. Its code is decoded when it is first called."""

    def __init__(self, module, index, kind):
        self.module, self.index, self.body = module, index, None
        self.params, self.results = kind
        self.name = f"func[{index}]"
        self.zeros, self.decoded = 0, None

    @property
    def code(self):
        if self.decoded is None:
            if self.body is None:
                raise Invalid(f"{self.name} is imported")
            self.decoded = decode(self)
        return self.decoded


class Table(dict):
    """A table: functions by their places. A place without one has no entry, as a table of 43 bytes may have 2^32 places."""

    def __init__(self, size):
        super().__init__()
        self.size = size


class Module:
    """A module's parts, as the interpreter needs them."""

    def __init__(self, data):
        if data[:8] != b"\0asm\1\0\0\0":
            raise Invalid("is not a WebAssembly module of version 1")
        self.types, self.functions, self.globals, self.elements, self.data = [], [], [], [], []
        self.tables, self.pages, self.exports, self.start, self.imported = [], 0, {}, None, 0
        file = Bytes(data, 8, len(data))
        while file.at < file.end:
            at, number = file.at, file.byte()
            if number >= len(SECTIONS):
                raise Invalid(f"offset {at:#x}: section {number} is unknown")
            try:
                getattr(self, "read_" + SECTIONS[number].replace(" ", "_"))(file.part(file.unsigned()))
            except (IndexError, TypeError):
                raise Invalid(f"offset {at:#x}: the {SECTIONS[number]} section refers to something that is not defined") from None

    def read_custom(self, part):
        if part.text() != "name":
            return
        while part.at < part.end:
            number, inner = part.byte(), part.part(part.unsigned())
            if number == 1:
                for _ in range(inner.unsigned()):
                    index, name = inner.unsigned(), inner.text()
                    if index < len(self.functions):
                        self.functions[index].name = name

    def read_type(self, part):
        def one():
            if part.byte() != 0x60:
                raise Invalid(f"offset {part.at - 1:#x}: not a function type")
            return list(part.take(part.unsigned())), list(part.take(part.unsigned()))
        self.types = part.many(one)

    def read_import(self, part):
        for _ in range(part.unsigned()):
            module, name, kind = part.text(), part.text(), part.byte()
            if kind != 0:
                raise Invalid(f"{module}.{name} is imported")
            self.functions.append(Function(self, len(self.functions), self.types[part.unsigned()]))
            self.functions[-1].name = name
            self.imported += 1

    def read_function(self, part):
        for _ in range(part.unsigned()):
            self.functions.append(Function(self, len(self.functions), self.types[part.unsigned()]))

    def least(self, part):
        """The minimum size of a table or a memory. The maximum is read and ignored, as nothing grows here."""
        bounded = part.byte() & 1
        size = part.unsigned()
        if bounded:
            part.unsigned()
        return size

    def read_table(self, part):
        def one():
            part.byte()
            return Table(self.least(part))
        self.tables = part.many(one)

    def read_memory(self, part):
        for _ in range(part.unsigned()):
            self.pages = self.least(part)

    def constant(self, part):
        """The value of an initial expression."""
        op, value = part.byte(), None
        if op in (0x41, 0x42):
            value = part.signed(32 if op == 0x41 else 64) & ((1 << (32 if op == 0x41 else 64)) - 1)
        elif op in (0x43, 0x44):
            value = int.from_bytes(part.take(4 if op == 0x43 else 8), "little")
        elif op == 0x23:
            value = self.globals[part.unsigned()]
        elif op == 0xD2:
            value = part.unsigned()
        elif op == 0xD0:
            part.byte()
        else:
            raise Invalid(f"offset {part.at - 1:#x}: an initial value that is not an integer")
        if part.byte() != 0x0B:
            raise Invalid(f"offset {part.at - 1:#x}: an initial value does not end")
        return value

    def read_global(self, part):
        for _ in range(part.unsigned()):
            part.take(2)
            self.globals.append(self.constant(part))

    def read_export(self, part):
        for _ in range(part.unsigned()):
            name, kind = part.text(), part.byte()
            self.exports[name] = kind, part.unsigned()

    def read_start(self, part):
        self.start = part.unsigned()

    def read_element(self, part):
        for _ in range(part.unsigned()):
            flags = part.unsigned()
            table = part.unsigned() if flags & 3 == 2 else 0
            at = self.constant(part) if not flags & 1 else None
            if flags & 3:
                part.byte()
            items = part.many((lambda: self.constant(part)) if flags & 4 else part.unsigned)
            if at is not None:
                if at + len(items) > self.tables[table].size:
                    raise Invalid("an element segment is outside its table")
                self.tables[table].update(enumerate(items, at))
            self.elements.append(items)

    def read_code(self, part):
        mine = self.functions[self.imported:]
        if part.unsigned() != len(mine):
            raise Invalid("the numbers of functions and of bodies differ")
        for function in mine:
            function.body = part.part(part.unsigned())

    def read_data(self, part):
        for _ in range(part.unsigned()):
            flags = part.unsigned()
            if flags == 2:
                part.unsigned()
            at = self.constant(part) if flags != 1 else 0
            self.data.append(Segment(flags != 1, at, part.take(part.unsigned())))

    def read_data_count(self, part):
        part.unsigned()


def block_type(part, module):
    """How many parameters and how many results a block has."""
    code = part.signed(33)
    if code >= 0:
        params, results = module.types[code]
        return len(params), len(results)
    return 0, 0 if code == -64 else 1


def operands(part, op, module):
    """The two operands of an instruction; the first one of a block, a loop or an `if` is a list to be filled in."""
    if op in (0x02, 0x03, 0x04):
        return list(block_type(part, module)), None
    if op in (0x0C, 0x0D, 0x10, 0xD2) or 0x20 <= op <= 0x26:
        return part.unsigned(), None
    if op == 0x0E:
        return part.many(part.unsigned), part.unsigned()
    if op in (0x11, 0xFC08, 0xFC0A, 0xFC0C, 0xFC0E):
        return part.unsigned(), part.unsigned()
    if op == 0x1C:
        return part.many(part.byte), None
    if 0x28 <= op <= 0x3E:
        align = part.unsigned()
        return part.unsigned(), align
    if op in (0x3F, 0x40, 0xD0, 0xFC09, 0xFC0B, 0xFC0D, 0xFC0F, 0xFC10, 0xFC11):
        return part.unsigned(), None
    if op in (0x41, 0x42):
        bits = 32 if op == 0x41 else 64
        return part.signed(bits) & ((1 << bits) - 1), None
    if op in (0x43, 0x44):
        return int.from_bytes(part.take(4 if op == 0x43 else 8), "little"), None
    return None, None


def decode(function):
    """The instructions of a function. A block records where it ends, and an `if` where its other part begins."""
    part = Bytes(function.body.data, function.body.at, function.body.end)
    for _ in range(part.unsigned()):
        function.zeros += part.unsigned()
        part.byte()
    code, opened = [], []
    while part.at < part.end:
        at, op = part.at, part.byte()
        if op == 0xFC:
            op = 0xFC00 + part.unsigned()
        a, b = operands(part, op, function.module)
        if op in (0x02, 0x03, 0x04):
            opened.append(a)
        elif op == 0x05:
            opened[-1].append(len(code) + 1)
            a = opened[-1]
        elif op == 0x0B and opened:
            block = opened.pop()
            block[2:] = [len(code), block[2] if len(block) > 2 else len(code)]
        code.append(Instruction(op, a, b, at))
    if opened or not code or code[-1].op != 0x0B:
        raise Invalid(f"{function.name} does not end")
    return code
