#!/usr/bin/env python3
"""Tries each kind of trap on both sides: `traps.py` prints a line for each kind.

Two modules of a kind differ in one number in their data, with which one traps and the other does not. The line says
whether the trapping object is accepted and its trap is named, what is verified of it and of the other object, and that
each of them is refused for the other module: one traps where its module does not, and one goes on where its module
traps."""
import os
import subprocess
import sys
import tempfile

top = os.path.join(os.path.dirname(os.path.abspath(__file__)), "..", "..")
sys.path.insert(0, os.path.join(top, "tools"))
sys.dont_write_bytecode = True
from common import Refused, program, put
from modules import I32, I64, const, many, section, unsigned
from wasm.translate import Options, translate
from wasm.verify import ending, told, verify

F64 = 0x7C
INPUT, OUTPUT, END = 1024, 1032, 1040
MOST_STEPS = 100_000
NONE, ONE_WORD = ((), ()), ((), (I64,))


def load(kind, align=3):
    return bytes([{I32: 0x28, I64: 0x29, F64: 0x2B}[kind], align, 0])


def store(code):
    """Stores the result of the code as the output."""
    return const(I32, OUTPUT) + code + b"\x37\x03\x00"


def number(kind):
    return const(I32, INPUT) + load(kind, 2 if kind == I32 else 3)


# For each kind: the code of `run`, the number with which it traps, one with which it does not, more functions (their
# parameters, results and code), the functions in the table, and the name under which the last function is exported.
KINDS = {
    "an access outside the memory": (store(number(I32) + load(I64)), 0, OUTPUT),
    "an access outside the memory, at its end": (store(number(I32) + load(I64, 0)), END - 7, END - 8),
    "an access outside the memory, of a fill": (number(I32) + const(I32, 1) + const(I32, 8) + b"\xFC\x0B\x00", END, OUTPUT),
    "a misaligned access": (store(number(I32) + load(I64)), INPUT + 4, OUTPUT),
    "the stack is full": (
        store(number(I64) + b"\x10\x01"), 100, 5,
        [((I64,), (I64,), b"\x20\x00\x50\x04\x7E" + const(I64, 0) + b"\x05\x20\x00" + const(I64, 1) + b"\x7D\x10\x01" +
          const(I64, 3) + b"\x7C\x0B")]),
    "an invalid indirect call": (
        store(number(I32) + b"\x11\x01\x00"), 2, 0,
        [((), (I64,), const(I64, 9)), ((I64,), (I64,), b"\x20\x00")], (1, 2)),
    "an invalid indirect call, to a function of another type": (
        store(number(I32) + b"\x11\x01\x00"), 1, 0,
        [((), (I64,), const(I64, 9)), ((I64,), (I64,), b"\x20\x00")], (1, 2)),
    "unreachable": (number(I32) + b"\x45\x04\x40\x00\x0B", 0, 1),
    "division by zero": (store(const(I64, 5) + number(I64) + b"\x80"), 0, 2),
    "division overflow": (store(const(I32, 1 << 31) + number(I32) + b"\x6D\xAC"), (1 << 32) - 1, 1),
    "a number that does not fit": (
        store(number(F64) + b"\xAA\xAC"), 0x7FE0000000000000, 0x3FF0000000000000,
        [((F64,), (I32,), const(I32, 1))], (), b"__fixdfsi"),
}


def module(word, code, functions=(), table=(), exported=None):
    """A module whose `run` stores 5, runs the code, and stores 6; with this word in its data."""
    functions = [(*NONE, store(const(I64, 5)) + code + store(const(I64, 6))), *functions]
    # Type 1 is that of a function without parameters that returns a word.
    types = [NONE, ONE_WORD, *((params, results) for params, results, _ in functions[1:])]
    numbers = [0, *range(2, len(types))]
    bodies = [b"\x00" + body + b"\x0B" for _, _, body in functions]
    exports = [b"\x03run\x00\x00", b"\x0A__data_end\x03\x00"]
    exports += [unsigned(len(exported)) + exported + b"\x00" + unsigned(len(functions) - 1)] if exported else []
    return (b"\0asm\1\0\0\0" +
            section(1, many([b"\x60" + many([bytes([kind]) for kind in params]) + many([bytes([kind]) for kind in results])
                             for params, results in types])) +
            section(3, many([unsigned(n) for n in numbers])) +
            (section(4, b"\x01\x70\x00\x03") if table else b"") +
            section(5, b"\x01\x00\x01") +
            section(6, many([bytes([I32, 0]) + const(I32, END) + b"\x0B"])) +
            section(7, many(exports)) +
            (section(9, many([b"\x00" + const(I32, 0) + b"\x0B" + many([unsigned(f) for f in table])])) if table else b"") +
            section(10, many([unsigned(len(body)) + body for body in bodies])) +
            section(11, many([b"\x00" + const(I32, INPUT) + b"\x0B" + unsigned(8) + word.to_bytes(8, "little")])))


def made(data, folder, name):
    """The translation of a module, and how the run of its object ends."""
    translation = translate(name, data, Options(entry="run"))
    text, made_there = os.path.join(folder, name + ".asm"), os.path.join(folder, name)
    put(text, translation.text.encode())
    with open(made_there, "wb") as out:
        subprocess.run([program(), "asm", text], stdout=out, check=True)
    said = subprocess.run([program(), "check", made_there], stdout=subprocess.PIPE, text=True, check=False).stdout
    return translation, ending(made_there, MOST_STEPS), said.strip()


def verdict(data, translation, run):
    """What was verified, or `refused`."""
    try:
        return verify(data, "run", translation, run).split(":")[0]
    except Refused as refused:
        return "refused" if str(refused).endswith("the translation is wrong; report it") else str(refused)


def main():
    for kind, (code, wrong, right, *more) in KINDS.items():
        traps, goes = module(wrong, code, *more), module(right, code, *more)
        with tempfile.TemporaryDirectory() as folder:
            trapping, trapped, checked = made(traps, folder, "traps")
            going, done, _ = made(goes, folder, "goes")
        named = told(trapped, trapping.text).split(": ")[-1] == kind.split(",")[0]
        print(f"{kind}: {checked}, {'named' if named else told(trapped, trapping.text)};",
              f"{verdict(traps, trapping, trapped)}; {verdict(goes, going, done)};",
              f"{verdict(goes, trapping, trapped)}; {verdict(traps, going, done)}")


if __name__ == "__main__":
    sys.setrecursionlimit(20000)
    main()
