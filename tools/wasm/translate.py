"""From a module to an assembly text: chooses the entry and the memory, and runs the passes in order."""
import gc
import os

from messages import near

from .bits import optimise
from .build import Builder
from .called import callees
from .emit import Emitter
from .layout import place
from .memory import MOST_CELLS, Memory
from .names import exported_symbols, linked_symbols, read_map
from .module import Module
from .narrower import Limits
from .opcodes import FLOATS, I32
from .pins import choose
from .refused import Refused, plain
from .subroutines import Program
from .text import Text, return_name


NO_END = "does not say where its data ends"
# Advice for tools/wasm2asm alone.
NOT_PADDED = ", or --exact"


class Options:
    """What may be chosen; each name is that of an option of tools/wasm2asm."""

    def __init__(self, **chosen):
        self.entry = self.memory = self.map = None
        self.unchecked = self.exact = self.loops = False
        self.pins = 4
        self.__dict__.update(chosen)


class Translation:
    """The text; `cells`: for each cell its name and the address of its 8 bytes in the module's memory, or None;
    `result`: the name of the cell that takes the entry's result, or None; `traps`: for the number of each block that
    is a trap's loop (function, offset in the module, what); `limits`: where the object traps although its module need
    not; `notes`: lines for people."""

    def __init__(self, text, cells, result, traps, limits, notes):
        self.text, self.cells, self.result, self.traps, self.limits, self.notes = text, cells, result, traps, limits, notes


def counted(count, what):
    return f"{count} {what}{'' if count == 1 else 's'}"


def choose_entry(module, name):
    exported = {n: module.funcs[i] for n, (what, i) in module.exports.items() if what == 0}
    if name is None:
        found = [n for n in exported if not exported[n].params and n not in ("__wasm_call_ctors", "memory")]
        if len(found) > 1:
            some = ", ".join(map(plain, found[:5])) + (", .." if len(found) > 5 else "")
            raise Refused(f"exports {len(found)} functions without parameters ({some})", "use --entry NAME")
        if not found:
            raise Refused("exports no function without parameters", "link with -Wl,--export=NAME")
        name = found[0]
    if name not in exported:
        meant = near(name, exported)
        raise Refused(f"exports no function `{plain(name)}`{meant}", "" if meant else "link with -Wl,--export=" + plain(name))
    func = exported[name]
    if func.params:
        raise Refused(f"the entry takes {counted(len(func.params), 'parameter')}",
                      "no arguments can be passed: name a function without parameters, such as `int main(void)`; "
                      "inputs are global variables",
                      func.name, func.at)
    if len(func.results) > 1:
        raise Refused(f"the entry has {counted(len(func.results), 'result')}",
                      "name a function with one result or none", func.name, func.at)
    if func.results and func.results[0] in FLOATS:
        raise Refused("the entry's result is a floating-point number", "return an integer", func.name, func.at)
    return func


def uses(module, entry):
    """The globals that the entry and what it calls use, and the addresses that are known without folding."""
    used, places, seen, todo = set(), [], set(), [entry]
    while todo:
        func = todo.pop()
        if func.index not in seen:
            seen.add(func.index)
            todo += callees(module, func)
            for ins in func.body:
                if ins.op in ("global.get", "global.set"):
                    used.add(ins.a)
                elif ins.op in ("load", "store") and ins.b[1] >= 1024:
                    places.append((ins.b[1], ins.b[1] + ins.a[1] // 8))
    return used, places


def stack_pointers(module):
    """The globals that may be the stack pointer, each with its initial value."""
    return [(i, value) for i, (kind, mutable, value) in enumerate(module.globals) if mutable and kind == I32
            and module.global_names.get(i, "__stack_pointer" if i == 0 else "") == "__stack_pointer"]


def extents(module, symbols, mapped, used, places):
    """The memory that the module uses, and its stack: (low, high, (low, high) of the stack or None)."""
    active = [s for s in module.segments if s.at is not None]
    low = [s.at for s in [*(s for s in active if s.data), *symbols]] + [at for at, _ in places]
    high = [s.at + len(s.data) for s in active] + [s.at + s.size for s in symbols] + [end for _, end in places]
    first, last = min(low, default=1024), max(high, default=1024)
    ended, stack = mapped, None
    if "__data_end" in module.exports:
        last, ended = max(last, module.globals[module.exports["__data_end"][1]][2]), True
    for i, value in stack_pointers(module)[:1]:
        if value <= first and i in used:      # the stack comes first
            first, stack = 0, (0, value)
        elif value > first and (i in used or not ended):
            stack = (last, value) if ended else None
            last, ended = max(last, value), True
    if not ended:
        raise Refused(NO_END, "link with -Wl,--export=__data_end, or use --memory LO:HI")
    return first, max(last, first + 8), stack


def symbols_of(module, path, options, places):
    """The data symbols, and whether a table of them exists."""
    tops = stack_pointers(module)
    symbols = linked_symbols(module, min((at for at, _ in places), default=None), tops[0][1] if tops else None)
    beside = (path + ".map", os.path.splitext(path)[0] + ".map")
    maps = [options.map] if options.map else [p for p in beside if os.path.exists(p)]
    if maps and (options.map or not symbols):
        symbols = read_map(maps[0])
    return symbols + exported_symbols(module, symbols), bool(symbols)


def memory_of(module, path, options, entry):
    used, places = uses(module, entry)
    symbols, mapped = symbols_of(module, path, options, places)
    if options.memory is None:
        low, high, stack = extents(module, symbols, mapped, used, places)
        return Memory(low, high, symbols, module.segments, stack, not options.exact)
    try:
        low, high = (int(x, 0) for x in options.memory.split(":"))
    except ValueError:
        low = high = 0
    if not 0 <= low < high <= 1 << 32:
        raise Refused(f"--memory: invalid range `{plain(options.memory)}`: expected LO:HI, as in --memory 1024:2048")
    return Memory(low, high, symbols, module.segments, None, not options.exact)


def emitted(program, memory, cells, options):
    """An emitter that has run. If allowed, it keeps the constants that a first one used most in free pairs."""
    emitter = Emitter(program, memory.length)
    emitter.run(cells)
    if options.pins > 0:
        emitter = Emitter(program, memory.length, *choose(emitter, options.pins))
        emitter.run(cells)
    return emitter


def table_of(memory, with_result, spills, frames):
    """The cells: (name, initial word, address in the module or None); and the name of the result's cell."""
    names = memory.names()
    taken = set(names)

    def fresh(name):
        while name in taken:
            name = "_" + name
        taken.add(name)
        return name

    table = [(name, word, memory.address_of(k)) for k, (name, word) in enumerate(zip(names, memory.words))]
    result = fresh("result") if with_result else None
    if result:
        table.append((result, 0, None))
    table += [(fresh(f"spill[{k}]"), 0, None) for k in range(spills)]
    table += [(fresh(f"frame[{k}]"), 0, None) for k in range(frames)]
    return table, result


def translate(path, data, options):
    """The translation, with the cycle collector off: it would examine hundreds of thousands of values for nothing."""
    collecting = gc.isenabled()
    gc.disable()
    try:
        return translated(path, data, options)
    finally:
        if collecting:
            gc.enable()


def translated(path, data, options):
    module = Module(data)
    entry = choose_entry(module, options.entry)
    memory = memory_of(module, path, options, entry)
    start = module.funcs[module.start] if module.start is not None else None
    builder = Builder(module, memory, not options.unchecked, options.loops)
    graph, shared = builder.build(entry, start, memory.length if entry.results else None)
    memory.test_size()
    for g in [graph, *(s.graph for s in shared)]:
        optimise(g, memory.length)
        place(g)
    program, cells = Program(graph, shared), memory.length + bool(entry.results)
    program.allocate(cells)
    room = MOST_CELLS - cells - program.cells
    if program.recursive:
        program.take_cells(cells + program.cells, room)
    if room < 0 or program.recursive and program.most < 2:
        nested = 2 * (program.frame + len(program.recursive)) if program.recursive else 0
        calls = f" and {nested} for two nested calls" if nested else ""
        raise Refused(f"needs {cells + program.cells + nested} cells, {program.cells} of them for spills{calls}, more than "
                      f"{MOST_CELLS}", "use less memory or a smaller -Wl,-z,stack-size=" + NOT_PADDED)
    emitter = emitted(program, memory, cells, options)
    table, result = table_of(memory, bool(entry.results), program.cells, program.most * program.frame)
    text = Text(emitter, [(name, word) for name, word, _ in table])
    head = f"# entry {entry.name}, memory 0x{memory.low:x} to 0x{memory.high:x}"
    returns = [(return_name(k, i), None) for k in range(len(program.recursive)) for i in range(program.most)]
    names = [(name, at) for name, _, at in table] + returns
    circles = {s.func.index: (s.func.at, frozenset(f.index for f in s.circle)) for s in program.recursive}
    limits = Limits(memory.low, memory.high, frozenset(s.func.index for s in shared), circles, program.most)
    return Translation("\n".join([head, *text.lines(), ""]), names, result, emitter.traps(), limits,
                       notes_of(text, emitter))


def notes_of(text, emitter):
    """The size of the text, and a warning if words are spilled."""
    counts, cells = text.counts, emitter.program.cells
    sizes = [(counts["instructions"], "instruction"), (len(emitter.heads), "block"),
             (counts["code types"], "code type"), (counts["nodes"], "node"), (counts["cells"], "cell")]
    notes = [", ".join(counted(*size) for size in sizes)]
    if emitter.spills:
        notes.append(f"warning: {emitter.spills} stores to {cells} spill cells: each store writes a line")
    return notes
