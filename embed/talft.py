"""talft from Python: check, compile and run objects with the proved library libtalft.so.

    >>> import talft
    >>> data = talft.compile("cell out = 0; out = 2 + 3;")
    >>> talft.check(data)
    >>> talft.run(data)
    ('done', [('out', 5)])
    >>> talft.run(data, fault="4:r1:6")[0] in ("done", "detected")
    True
    >>> talft.check(data[:-1])
    Traceback (most recent call last):
    talft.Refused: object 2 378
    >>> try:
    ...     talft.compile("cell out = 0; in = 5;")
    ... except talft.Refused as error:
    ...     error.status, error.part, error.number, error.place
    (6, 5, 7, 14)
    >>> talft.run(data, fault="4:r1:6", wild="5,stop")[0] in ("done", "detected")
    True
    >>> talft.run(data, fault="4:x:6")
    Traceback (most recent call last):
    ValueError: invalid fault '4:x:6': expected STEP:SITE:WORD
    >>> talft.run(data, fault="4:r1:6", wild="x")
    Traceback (most recent call last):
    ValueError: invalid fault or answers: fault '4:r1:6', wild 'x'
    >>> talft.run("five.obj")
    Traceback (most recent call last):
    TypeError: expected the object's bytes, not a file name
    >>> talft.recover(data, fault="4:r1:6")[:2]
    ('done', [('out', 5)])
    >>> list(talft.stream(data))
    [('out', 5)]
    >>> talft.check(talft.schedule(data))
    >>> talft.assemble(talft.disassemble(data)) == data
    True
    >>> counter = talft.compile("cell n = 0; n = n + 1;")
    >>> talft.run(talft.set_cell(counter, 0, 41))
    ('done', [('n', 42)])
    >>> talft.set_cell(counter, "n", 41)
    Traceback (most recent call last):
    TypeError: the cell must be given by its number, counted from 0
    >>> talft.set_cell(counter, 7, 0)
    Traceback (most recent call last):
    IndexError: no cell 7
    >>> talft.set_cell(counter, 2**32, 0)
    Traceback (most recent call last):
    OverflowError: 4294967296 is not from 0 to 2^32 - 1
    >>> talft.run(data, steps=-1)
    Traceback (most recent call last):
    OverflowError: -1 is not from 0 to 2^64 - 1
    >>> talft.campaign(data, "4:r1:6\\n900:r2:7\\n", steps=100)[1]
    ('idle', 0)
    >>> talft.campaign(data, ["4:r1:6", "900:r2:7"])
    Traceback (most recent call last):
    TypeError: faults must be one text with one fault per line
    >>> talft.campaign(data, "4:x:6")
    Traceback (most recent call last):
    talft.Refused: list 1 1
    >>> talft.check(talft.link("module main.obj\\n", {"main.obj": data}))
    >>> talft.link("module main.obj\\nexport show 900\\n", {"main.obj": data})
    Traceback (most recent call last):
    talft.Refused: link 7 2
    >>> talft.link("module main.obj\\n", {})
    Traceback (most recent call last):
    KeyError: 'module 0 of the link map is missing'

The library is the one that $TALFT_LIBRARY names, or the one next to this file, or the one that the system finds. Each
function may be called from several threads at once; a generator from `stream` must stay on its thread.
"""

import ctypes
import operator
import os

__all__ = ["Refused", "assemble", "campaign", "check", "compile", "disassemble", "link", "recover", "run", "schedule",
           "set_cell", "stream", "upgrade"]

_OK, _DETECTED, _BAD_PLAN, _NO_MEMORY = 0, 1, 2, 5
_CUT, _FULL, _NO_ROOM, _NO_CELL, _OTHER_TYPE, _NO_MODULE = 9, 14, 15, 16, 19, 20
_VERDICTS = "masked", "detected", "idle"
_ENDS = {_OK: "done", _DETECTED: "detected", _CUT: "cut"}


class _Refusal(ctypes.Structure):
    _fields_ = [
        ("part", ctypes.c_uint32),
        ("number", ctypes.c_uint32),
        ("place", ctypes.c_uint64),
        ("index", ctypes.c_uint64),
    ]


class _Output(ctypes.Structure):
    _fields_ = [("cell", ctypes.c_uint64), ("value", ctypes.c_uint64)]


class _Ran(ctypes.Structure):
    _fields_ = [(name, ctypes.c_uint64) for name in ("steps", "count", "restarts", "again")]


class _Module(ctypes.Structure):
    _fields_ = [
        ("name", ctypes.c_char_p),
        ("name_len", ctypes.c_size_t),
        ("bytes", ctypes.c_char_p),
        ("len", ctypes.c_size_t),
    ]


class _Verdict(ctypes.Structure):
    _fields_ = [("verdict", ctypes.c_uint64), ("at", ctypes.c_uint64)]


class _Totals(ctypes.Structure):
    _fields_ = [(name, ctypes.c_uint64) for name in ("count", "masked", "detected", "idle")]


class _Machine(ctypes.Structure):
    _fields_ = [("there", ctypes.c_uint64), ("at", ctypes.c_void_p)]


class Refused(ValueError):
    """Why bytes or a text are refused: `status`, `part`, `number`, `place` and `index`, and for a link `module`, as in
    talft.h. Its text is the line that the command writes."""

    def __init__(self, status, why, module=0):
        self.status, self.part, self.number = status, why.part, why.number
        self.place, self.index, self.module = why.place, why.index, module
        block = f"{module} {why.place} {why.index}"
        super().__init__(
            {
                1: f"object {why.number} {why.place}",
                2: "check entry",
                3: f"check cell {why.place}",
                4: f"check block {why.place} index {why.index} premise {why.number}",
                5: f"source {why.number} {why.place}",
                6: f"asm {why.number} {why.place}",
                7: f"link {why.number} {block if why.number == 5 else why.place}",
                8: f"list {why.number} {why.place}",
            }.get(why.part, f"status {status}")
        )


def _load():
    here = os.path.join(os.path.dirname(os.path.abspath(__file__)), "libtalft.so")
    name = os.environ.get("TALFT_LIBRARY") or (here if os.path.exists(here) else "libtalft.so")
    instead = "`make library` makes crates/ft_c/out/library/libtalft.so: install it, or name it in TALFT_LIBRARY"
    if os.path.isdir(name):
        raise ImportError(f"{name} is a folder: {instead}")
    try:
        library = ctypes.CDLL(name)
    except OSError as error:
        is_other = any(told in str(error) for told in ("invalid ELF header", "file too short"))
        is_here = os.sep not in name and os.path.exists(name)
        told = ("not found: write its whole path" if is_here else "not found" if "No such file" in str(error) else
                "is not a shared library" if is_other else f"not loaded ({error})")
        raise ImportError(f"{name} {told}: {instead}") from None
    if not hasattr(library, "talft_open"):
        raise ImportError(f"{name} is not libtalft.so, or an old one: {instead}")
    size, word, text = ctypes.c_size_t, ctypes.c_uint64, ctypes.c_char_p
    why = ctypes.POINTER(_Refusal)
    made = ctypes.POINTER(size)
    writers = ("talft_compile", "talft_assemble", "talft_disassemble", "talft_upgrade", "talft_schedule")
    for writer in writers:
        getattr(library, writer).argtypes = [text, size, text, size, made, why]
    library.talft_check.argtypes = [text, size, why]
    library.talft_name.argtypes = [text, size, ctypes.c_uint32, text, size, made, why]
    for runner in ("talft_run", "talft_recover"):
        getattr(library, runner).argtypes = [
            text, size, text, size, text, size, word, ctypes.POINTER(_Output), size, ctypes.POINTER(_Ran), why,
        ]
    library.talft_set_cell.argtypes = [text, size, ctypes.c_uint32, word, why]
    library.talft_link.argtypes = [
        text, size, ctypes.POINTER(_Module), size, text, size, made, ctypes.POINTER(ctypes.c_uint32), why,
    ]
    library.talft_campaign.argtypes = [
        text, size, text, size, text, size, word, ctypes.POINTER(_Verdict), size, ctypes.POINTER(_Totals), why,
    ]
    machine = ctypes.POINTER(_Machine)
    library.talft_open.argtypes = [text, size, machine, why]
    library.talft_advance.argtypes = [machine, word, ctypes.POINTER(_Output), size, ctypes.POINTER(_Ran)]
    library.talft_close.argtypes, library.talft_close.restype = [machine], None
    others = ("check", "name", "run", "recover", "set_cell", "link", "campaign", "open", "advance")
    for function in (*writers, *(f"talft_{name}" for name in others)):
        getattr(library, function).restype = ctypes.c_uint32
    return library


_LIBRARY = _load()


def _is_file(data):
    """Whether this is an open file, and not bytes that can be read like one."""
    if not hasattr(data, "read"):
        return False
    try:
        memoryview(data)
    except TypeError:
        return True
    return False


def _bytes(data):
    if isinstance(data, int):
        raise TypeError("expected bytes or a text, not a number")
    if _is_file(data):
        raise TypeError("expected bytes or a text, not an open file: `.read()` it")
    return data.encode() if isinstance(data, str) else bytes(data)


def _object(data):
    if isinstance(data, (str, os.PathLike)):
        raise TypeError("expected the object's bytes, not a file name")
    if _is_file(data):
        raise TypeError("expected the object's bytes, not an open file: `.read()` it, opened with 'rb'")
    return _bytes(data)


def _number(value, bits=64):
    """The number, if it fits into this many bits; ctypes would silently reduce it modulo 2^bits."""
    value = operator.index(value)
    if not 0 <= value < 2**bits:
        raise OverflowError(f"{value} is not from 0 to 2^{bits} - 1")
    return value


def _answer(status, why, module=0):
    if status == _NO_MEMORY:
        raise MemoryError
    raise Refused(status, why, module)


def _written(function, *asked):
    """What a function writes into a buffer that grows as needed."""
    room, made, why = 65536, ctypes.c_size_t(0), _Refusal()
    while True:
        out = ctypes.create_string_buffer(room)
        status = function(*asked, out, room, ctypes.byref(made), ctypes.byref(why))
        if status == _OK:
            return out.raw[: made.value]
        if status != _NO_ROOM:
            _answer(status, why)
        room = made.value


def check(data):
    """Checks an object; raises Refused if it is not accepted."""
    data, why = _object(data), _Refusal()
    status = _LIBRARY.talft_check(data, len(data), ctypes.byref(why))
    if status != _OK:
        _answer(status, why)


def _run(function, data, steps, fault, wild):
    """What a function that runs an object returns; its array grows as needed."""
    data, room, steps = _object(data), 1024, _number(steps)
    plan = _bytes(fault), _bytes(wild)
    ran, why = _Ran(), _Refusal()

    def status_of(struck, answers):
        return function(
            data, len(data), struck, len(struck), answers, len(answers), steps, out, room,
            ctypes.byref(ran), ctypes.byref(why),
        )

    while True:
        out = (_Output * room)()
        status = status_of(*plan)
        if status != _FULL:
            break
        room *= 4
    if status == _BAD_PLAN:
        if status_of(plan[0], b"") == _BAD_PLAN and status_of(b"", b"") != _BAD_PLAN:
            raise ValueError(f"invalid fault {fault!r}: expected STEP:SITE:WORD")
        raise ValueError(f"invalid fault or answers: fault {fault!r}, wild {wild!r}")
    if status not in _ENDS:
        _answer(status, why)
    pairs, names = out[: ran.count], {}
    for pair in pairs:
        if pair.cell not in names:
            names[pair.cell] = _written(_LIBRARY.talft_name, data, len(data), pair.cell).decode()
    return _ENDS[status], [(names[pair.cell], pair.value) for pair in pairs], ran


def run(data, steps=1_000_000, fault="", wild=""):
    """Checks an object and runs it. Returns how it ended ("done", "detected", "cut"), and the names and words of its
    outputs. `fault` is a text such as "4:r1:6", and `wild` one such as "5,stop"."""
    return _run(_LIBRARY.talft_run, data, steps, fault, wild)[:2]


def recover(data, steps=1_000_000, fault="", wild=""):
    """Checks an object and runs it; if the fault is detected, runs it again without the fault. Returns how the run
    without the fault ended ("done", "cut"), its outputs, and how many of them the first run had committed when it was
    detected, or None."""
    end, outputs, ran = _run(_LIBRARY.talft_recover, data, steps, fault, wild)
    return end, outputs, ran.again if ran.restarts else None


def stream(data, steps=1_000_000):
    """Checks an object and runs it in slices of steps; yields the name and the word of each output as it comes. The
    generator's value, which `yield from` returns, says how the run ended ("done", "cut")."""
    data, machine, why, ran, steps = _object(data), _Machine(), _Refusal(), _Ran(), _number(steps)
    status = _LIBRARY.talft_open(data, len(data), ctypes.byref(machine), ctypes.byref(why))
    if status != _OK:
        _answer(status, why)
    try:
        out = (_Output * 256)()
        status = _CUT
        while steps > 0 and status != _OK:
            slice_of = min(steps, 65536)
            status = _LIBRARY.talft_advance(ctypes.byref(machine), slice_of, out, 256, ctypes.byref(ran))
            steps -= ran.steps
            for pair in out[: ran.count]:
                yield _written(_LIBRARY.talft_name, data, len(data), pair.cell).decode(), pair.value
        return "done" if status == _OK else "cut"
    finally:
        _LIBRARY.talft_close(ctypes.byref(machine))


def compile(text):
    """Compiles a source to an object."""
    text = _bytes(text)
    return _written(_LIBRARY.talft_compile, text, len(text))


def assemble(text):
    """The object of an assembly text."""
    text = _bytes(text)
    return _written(_LIBRARY.talft_assemble, text, len(text))


def disassemble(data):
    """The assembly text of an object."""
    data = _object(data)
    return _written(_LIBRARY.talft_disassemble, data, len(data)).decode()


def upgrade(data):
    """The object in version 2 of the format."""
    data = _object(data)
    return _written(_LIBRARY.talft_upgrade, data, len(data))


def schedule(data):
    """The schedule of an object, which must be accepted."""
    data = _object(data)
    return _written(_LIBRARY.talft_schedule, data, len(data))


def set_cell(data, cell, word):
    """The object with another initial word in a cell, which is given by its number and must be of type `int`. It is
    accepted exactly when the object is."""
    data, why = _object(data), _Refusal()
    if isinstance(cell, str):
        raise TypeError("the cell must be given by its number, counted from 0")
    out = ctypes.create_string_buffer(data)
    status = _LIBRARY.talft_set_cell(out, len(data), _number(cell, 32), _number(word), ctypes.byref(why))
    if status == _NO_CELL:
        raise IndexError(f"no cell {cell}")
    if status == _OTHER_TYPE:
        raise TypeError(f"cell {cell} is not of type int")
    if status != _OK:
        _answer(status, why)
    return out.raw[: len(data)]


def link(text, modules):
    """The object that a link map links from modules, which are given by the names of their files."""
    text, module = _bytes(text), ctypes.c_uint32(0)
    pairs = [(_bytes(name), _object(data)) for name, data in modules.items()]
    given = (_Module * len(pairs))(*((name, len(name), data, len(data)) for name, data in pairs))
    room, made, why = 4096, ctypes.c_size_t(0), _Refusal()
    while True:
        out = ctypes.create_string_buffer(room)
        status = _LIBRARY.talft_link(
            text, len(text), given, len(pairs), out, room, ctypes.byref(made), ctypes.byref(module), ctypes.byref(why),
        )
        if status == _OK:
            return out.raw[: made.value]
        if status == _NO_MODULE:
            raise KeyError(f"module {module.value} of the link map is missing")
        if status != _NO_ROOM:
            _answer(status, why, module.value)
        room = made.value


def campaign(data, faults, steps=1_000_000, wild=""):
    """Checks an object and tries each fault of a list. Returns for each, in order, its verdict ("masked", "detected",
    "idle"), and the step that detected it, or 0. `faults` is a text of lines such as "4:r1:6"."""
    if not isinstance(faults, (str, bytes, bytearray, memoryview)):
        raise TypeError("faults must be one text with one fault per line")
    data, faults, wild, steps = _object(data), _bytes(faults), _bytes(wild), _number(steps)
    room, totals, why = faults.count(b"\n") + 1, _Totals(), _Refusal()
    out = (_Verdict * room)()
    status = _LIBRARY.talft_campaign(
        data, len(data), faults, len(faults), wild, len(wild), steps, out, room, ctypes.byref(totals), ctypes.byref(why),
    )
    if status == _BAD_PLAN:
        raise ValueError(f"invalid answers, or too many steps: wild {wild!r}, {steps} steps")
    if status != _OK:
        _answer(status, why)
    return [(_VERDICTS[one.verdict], one.at) for one in out[: totals.count]]
