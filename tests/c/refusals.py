#!/usr/bin/env python3
"""Writes a module for each refusal of the translator into a folder: `refusals.py FOLDER`."""
import os
import sys

from modules import I32, I64, const, many, section, unsigned

F32 = 0x7D
RUN = b"\x03run\x00\x00"


def module(code=b"", params=(), results=(), end=1032, exports=(RUN,), before=b"", table=b"", data=b""):
    """A module with one function, whose data end at this address; the given parts are put where they belong."""
    body = b"\x00" + code + b"\x0B"
    ended = [] if end is None else [bytes([I32, 0]) + const(I32, end) + b"\x0B"]
    names = list(exports) + ([] if end is None else [b"\x0A__data_end\x03\x00"])
    return (b"\0asm\1\0\0\0" +
            section(1, many([b"\x60" + many([bytes([k]) for k in params]) + many([bytes([k]) for k in results])])) +
            before + section(3, b"\x01\x00") + table + section(5, b"\x01\x00\x02") + section(6, many(ended)) +
            section(7, many(names)) + section(10, many([unsigned(len(body)) + body])) + data)


CASES = {
    "empty": b"",
    "text": b"int main(void) { return 0; }\n",
    "cut": module(const(I32, 5) + b"\x1A")[:-6],
    "section": b"\0asm\1\0\0\0" + section(77, b""),
    "types": module(const(I64, 5) + const(I32, 5) + b"\x6A\x1A"),
    "stack": module(b"\x1A"),
    "float": module(b"\x43\x00\x00\x80\x3F\x43\x00\x00\x80\x3F\x92\x1A"),
    "floating": module(b"\x43\x00\x00\x80\x3F", results=(F32,)),
    "vector": module(b"\xFD\x0C" + bytes(16) + b"\x1A"),
    "atomic": module(b"\xFE\x03\x00"),
    "reference": module(b"\xD0\x70\x1A"),
    "element": module(const(I32, 0) + b"\x25\x00\x1A", table=section(4, b"\x01\x70\x00\x01")),
    "import": module(before=section(2, many([b"\x03env\x05reach\x00\x00"])), exports=(b"\x03run\x00\x01",)),
    "unlinked": module(before=section(2, many([b"\x03env\x0F__linear_memory\x02\x00\x00"]))),
    "parameter": module(params=(I32,)),
    "without": module(exports=()),
    "two": module(exports=(RUN, b"\x04step\x00\x00")),
    "endless": module(end=None),
    "alignment": module(const(I32, 1024) + b"\x28" + unsigned(2 ** 32 - 1) + b"\x00\x1A"),
    "large": module(end=1024 + 8 * 1025),
    "full": module(const(I32, 5), results=(I32,), end=1024 + 8 * 1024),
    "deep": module(const(I32, 1024) + b"\x28\x02\x00\x04\x40\x10\x00\x0B", end=1024 + 8 * 1024),
}


def functions(count):
    """A module with this many functions that do nothing."""
    return (b"\0asm\1\0\0\0" + section(1, many([b"\x60\x00\x00"])) + section(3, unsigned(count) + b"\x00" * count) +
            section(5, b"\x01\x00\x02") + section(6, many([bytes([I32, 0]) + const(I32, 1032) + b"\x0B"])) +
            section(7, many([RUN, b"\x0A__data_end\x03\x00"])) + section(10, unsigned(count) + b"\x02\x00\x0B" * count))


# Modules that are not refused, and whose sizes must not be taken at their word: a table of 2^32 - 1 places, six times loops
# that nest as deep as they may, and functions that nothing calls. Two run for ever, one of them in a trap.
SIZES = {
    "functions": functions(100_000),
    "places": module(table=section(4, b"\x01\x70\x00" + unsigned(2 ** 32 - 1))),
    "looping": module(b"\x03\x40\x0C\x00\x0B"),
    "trapped": module(b"\x00"),
    "nested": module((b"\x03\x40" * 4990 + b"\x0B" * 4990) * 6),
}


def main(folder):
    for name, data in {**CASES, **SIZES}.items():
        with open(os.path.join(folder, name + ".wasm"), "wb") as out:
            out.write(data)


if __name__ == "__main__":
    main(*sys.argv[1:])
