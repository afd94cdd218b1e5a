"""Reads from a module's debug information (DWARF 4, as clang writes it) where the scalars of global variables are."""
import collections
import struct

# Of a variable of a scalar type, or of such a part of a variable: its address, how many bytes it has, its kind, and its
# expression in C.
Scalar = collections.namedtuple("Scalar", "at size kind expression")
SECTIONS = ".debug_info", ".debug_abbrev", ".debug_str"
VERSION, ADDRESS = 4, 4
# Tags.
ARRAY, ENUMERATION, MEMBER, POINTER, STRUCTURE, TYPEDEF, UNION = 0x01, 0x04, 0x0D, 0x0F, 0x13, 0x16, 0x17
SUBRANGE, BASE, CONST, VARIABLE, VOLATILE, REFERENCE, CLASS = 0x21, 0x24, 0x26, 0x34, 0x35, 0x10, 0x02
# Attributes.
LOCATION, NAME, SIZE, BITS, UPPER, COUNT, PLACE = 0x02, 0x03, 0x0B, 0x0D, 0x2F, 0x37, 0x38
ENCODING, SPECIFICATION, TYPE = 0x3E, 0x47, 0x49
KINDS = {0x01: "pointer", 0x02: "bool", 0x04: "float", 0x05: "signed", 0x06: "char", 0x07: "unsigned", 0x08: "unsigned"}
AT_ADDRESS = 0x03
# How many scalars are looked for: a module has at most 1,024 cells of 8 bytes.
MOST = 8_192


class Unreadable(Exception):
    """Debug information of another form."""


class Reader:
    def __init__(self, data, at=0):
        self.data, self.at = data, at

    def take(self, count):
        if not 0 <= count <= len(self.data) - self.at:
            raise Unreadable
        self.at += count
        return self.data[self.at - count:self.at]

    def number(self, size):
        return int.from_bytes(self.take(size), "little")

    def unsigned(self):
        found = shift = 0
        while True:
            byte = self.number(1)
            found |= (byte & 127) << shift
            shift += 7
            if byte < 128:
                return found

    def signed(self):
        start = self.at
        found, bits = self.unsigned(), 7 * (self.at - start)
        return found - (1 << bits) if self.data[self.at - 1] & 64 else found

    def text(self):
        end = self.data.find(b"\0", self.at)
        if end < 0:
            raise Unreadable
        return self.take(end + 1 - self.at)[:-1].decode("utf-8", "replace")


class Entry:
    """An entry of the debug information: its tag, its attributes, and the entries in it."""

    def __init__(self, tag, attributes):
        self.tag, self.attributes, self.inner = tag, attributes, []

    def get(self, attribute, otherwise=None):
        return self.attributes.get(attribute, otherwise)


class Unit:
    """The entries of a compilation unit, by their places."""

    def __init__(self, reader, sections):
        self.start = reader.at
        self.end = reader.number(4) + self.start + 4
        if reader.number(2) != VERSION:
            raise Unreadable
        self.sections, self.found = sections, {}
        self.forms = abbreviations(Reader(sections[".debug_abbrev"], reader.number(4)))
        if reader.number(1) != ADDRESS or self.end > len(reader.data):
            raise Unreadable
        opened = [Entry(None, {})]
        while reader.at < self.end:
            place, code = reader.at, reader.unsigned()
            if code == 0:
                if len(opened) > 1:
                    opened.pop()
                continue
            if code not in self.forms:
                raise Unreadable
            tag, has_inner, forms = self.forms[code]
            entry = Entry(tag, {attribute: self.value(reader, form) for attribute, form in forms})
            self.found[place] = entry
            opened[-1].inner.append(entry)
            if has_inner:
                opened.append(entry)

    def value(self, reader, form):
        """The value of an attribute."""
        fixed = {0x01: ADDRESS, 0x05: 2, 0x06: 4, 0x07: 8, 0x0B: 1, 0x0C: 1, 0x10: 4, 0x17: 4, 0x20: 8}
        if form in fixed:
            return reader.number(fixed[form])
        if form in (0x11, 0x12, 0x13, 0x14):
            return self.start + reader.number(1 << (form - 0x11))
        if form in (0x03, 0x04, 0x0A):
            return reader.take(reader.number({0x03: 2, 0x04: 4, 0x0A: 1}[form]))
        if form in (0x09, 0x18):
            return reader.take(reader.unsigned())
        if form == 0x0E:
            return Reader(self.sections[".debug_str"], reader.number(4)).text()
        if form == 0x15:
            return self.start + reader.unsigned()
        plain = {0x08: reader.text, 0x0D: reader.signed, 0x0F: reader.unsigned, 0x19: lambda: 1}
        if form not in plain:
            raise Unreadable
        return plain[form]()

    def refer(self, entry, attribute):
        """The entry that an attribute refers to, or None."""
        return self.found.get(entry.get(attribute))

    def stripped(self, entry):
        """A type without names and qualifiers."""
        for _ in range(64):
            kind = self.refer(entry, TYPE) if entry is not None and entry.tag in (TYPEDEF, CONST, VOLATILE) else entry
            if kind is entry:
                return entry
            entry = kind
        raise Unreadable

    def scalars(self, entry, at, expression, found):
        """Adds the scalars of a type at an address."""
        kind = self.stripped(entry)
        if kind is None or len(found) > MOST:
            return
        if kind.tag == BASE and kind.get(ENCODING) in KINDS:
            found.append(Scalar(at, kind.get(SIZE, 0), KINDS[kind.get(ENCODING)], expression))
        elif kind.tag in (POINTER, REFERENCE):
            found.append(Scalar(at, kind.get(SIZE, ADDRESS), "pointer", expression))
        elif kind.tag == ENUMERATION:
            of = self.stripped(self.refer(kind, TYPE))
            found.append(Scalar(at, kind.get(SIZE, 4), KINDS.get(of.get(ENCODING), "signed") if of else "signed", expression))
        elif kind.tag in (STRUCTURE, CLASS, UNION):
            for member in kind.inner:
                if member.tag == MEMBER and BITS not in member.attributes and isinstance(member.get(PLACE, 0), int):
                    name = member.get(NAME)
                    self.scalars(self.refer(member, TYPE), at + member.get(PLACE, 0),
                                 f"{expression}.{name}" if name else expression, found)
        elif kind.tag == ARRAY:
            counts = [inner.get(COUNT, inner.get(UPPER, -1) + 1) for inner in kind.inner if inner.tag == SUBRANGE]
            self.elements(self.refer(kind, TYPE), at, expression, counts, found)

    def elements(self, entry, at, expression, counts, found):
        """Adds the scalars of an array's elements."""
        if not counts:
            self.scalars(entry, at, expression, found)
            return
        size = self.size(entry)
        for count in counts[1:]:
            size *= count
        for i in range(min(counts[0], MOST) if size else 0):
            if len(found) > MOST:
                return
            self.elements(entry, at + i * size, f"{expression}[{i}]", counts[1:], found)

    def size(self, entry):
        """How many bytes a type has."""
        kind = self.stripped(entry)
        if kind is None:
            return 0
        if kind.tag == ARRAY:
            size = self.size(self.refer(kind, TYPE))
            for inner in kind.inner:
                if inner.tag == SUBRANGE:
                    size *= inner.get(COUNT, inner.get(UPPER, -1) + 1)
            return size
        return kind.get(SIZE, ADDRESS if kind.tag in (POINTER, REFERENCE) else 0)

    def variables(self):
        """The variables with an address of their own: entry, name and address."""
        for entry in self.found.values():
            place = entry.get(LOCATION)
            if entry.tag == VARIABLE and isinstance(place, bytes) and len(place) == 1 + ADDRESS and place[0] == AT_ADDRESS:
                named = self.refer(entry, SPECIFICATION) or entry
                if named.get(NAME) and self.refer(named, TYPE):
                    yield self.refer(named, TYPE), named.get(NAME), int.from_bytes(place[1:], "little")


def abbreviations(reader):
    """For each code: the tag, whether entries are in it, and its attributes with their forms."""
    found = {}
    while code := reader.unsigned():
        tag, has_inner, forms = reader.unsigned(), reader.number(1), []
        while True:
            attribute, form = reader.unsigned(), reader.unsigned()
            if not attribute and not form:
                break
            forms.append((attribute, form))
        found[code] = tag, has_inner, forms
    return found


def custom_sections(module):
    """The custom sections of a module, by name."""
    reader, found = Reader(module, 8), {}
    while reader.at < len(module):
        kind, part = reader.number(1), reader.take(reader.unsigned())
        if kind == 0:
            inner = Reader(part)
            name = inner.take(inner.unsigned()).decode("utf-8", "replace")
            found[name] = part[inner.at:]
    return found


def scalars_of(module):
    """The scalars of all global variables of a module, by address; none if its debug information is missing or of another
    form."""
    found = []
    try:
        sections = custom_sections(module)
        if not all(name in sections for name in SECTIONS):
            return found
        reader = Reader(sections[".debug_info"])
        while reader.at < len(reader.data):
            unit = Unit(reader, sections)
            for kind, name, at in unit.variables():
                unit.scalars(kind, at, name, found)
            reader.at = unit.end
    except (Unreadable, RecursionError):
        return []
    return sorted(set(found))


def number_of(word, offset, scalar_size, kind):
    """The value of the bytes of a word from an offset on, as a number, a truth value, or a text for a pointer."""
    data = word.to_bytes(8, "little")[offset:offset + scalar_size]
    if kind == "float" and scalar_size in (4, 8):
        return struct.unpack("<f" if scalar_size == 4 else "<d", data)[0]
    if kind == "bool":
        return any(data)
    found = int.from_bytes(data, "little", signed=kind in ("signed", "char"))
    return f"{found:#x}" if kind == "pointer" else found
