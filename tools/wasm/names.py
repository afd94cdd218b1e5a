"""The data symbols: from the section `linking`, a linker map, or exported addresses."""
import re

from .opcodes import I32
from .refused import Refused


class Symbol:
    def __init__(self, name, at, size, sized=True):
        self.name, self.at, self.size, self.sized = name, at, size, sized


def read_map(path):
    """The data symbols in a map of wasm-ld (-Wl,-Map=FILE)."""
    symbols = []
    form = re.compile(r"\s*([0-9a-f]+)\s+[0-9a-f]+\s+([0-9a-f]+) {17,}(\S+)$")
    with open(path, encoding="utf-8", errors="replace") as lines:
        for line in lines:
            match = form.match(line.rstrip("\n"))
            if match:
                symbols.append(Symbol(match[3], int(match[1], 16), int(match[2], 16)))
    return [s for s in symbols if s.at > 0 and s.size > 0]


def linked_symbols(module, first, stack_top):
    """The data symbols in the section `linking` (-Wl,--emit-relocs), with their sizes, including static ones.
    Segments of zeros have no place in the module: they come after those that have one. `first` is the lowest address
    that code names."""
    try:
        aligns, found = read_linking(module.linking)
    except Refused:
        return []       # names are only for people
    comes_first = stack_top is not None and (stack_top < 1024 or first is not None and stack_top <= first)
    end, places = stack_top if comes_first else 1024, []
    for i, align in enumerate(aligns):
        if i < len(module.segments):
            at, size = module.segments[i].at, len(module.segments[i].data)
            if at is None:
                return []
        else:
            at, size = -(-end // align) * align, max((o + n for _, j, o, n in found if j == i), default=0)
        places.append(at)
        end = at + size
    return [Symbol(name, places[i] + at, size) for name, i, at, size in found if size and i < len(places)]


def read_linking(part):
    """The alignments of the segments, and the data symbols: (name, segment, offset, size)."""
    aligns, found = [], []
    if part is None or part.u() != 2:
        return aligns, found
    while part.at < part.end:
        kind, inner = part.byte(), part.part(part.u())
        if kind == 5:
            for _ in range(inner.u()):
                inner.name()
                aligns.append(1 << min(inner.u(), 16))
                inner.u()
        elif kind == 8:
            for _ in range(inner.u()):
                read_symbol(inner, found)
    return aligns, found


def read_symbol(part, found):
    what, flags = part.byte(), part.u()
    is_undefined, has_name = flags & 0x10, flags & 0x40
    if what == 1:
        name = part.name()
        if not is_undefined:
            found.append((name, part.u(), part.u(), part.u()))
    else:
        part.u()
        if what != 3 and (not is_undefined or has_name):
            part.name()


def exported_symbols(module, known):
    """Exported addresses (-Wl,--export=NAME) are also symbols; each ends where the next one begins."""
    have = {s.name for s in known}
    places = sorted((module.globals[i][2], n) for n, (what, i) in module.exports.items()
                    if what == 3 and module.globals[i][0] == I32 and not module.globals[i][1])
    ends = sorted({at for at, n in places if not n.startswith("__") or n == "__data_end"} | {s.at for s in known})
    found = []
    for at, name in places:
        if not name.startswith("__") and name not in have:
            found.append(Symbol(name, at, min([e for e in ends if e > at], default=at + 8) - at, False))
    return found
