#!/usr/bin/env python3
"""Counts the pixels of each verdict's colour in a PNG, or in the PNG within an SVG: python3 tests/picture.py FILE.

With --text before FILE, it writes the description within a PNG instead."""
import base64
import collections
import re
import struct
import sys
import zlib

COLOURS = {"56b4e9": "masked", "0072b2": "detected", "bbbbbb": "idle", "d55e00": "corrupt"}


def chunks(data):
    """The parts of a PNG, as name and content."""
    at = 8
    while at < len(data):
        size, name = struct.unpack(">I4s", data[at:at + 8])
        yield name, data[at + 8:at + 8 + size]
        at += size + 12


def unfiltered(kind, row, above, size):
    """A row of pixels of this many bytes each; depending on the filter, bytes are differences from other bytes."""
    out = bytearray(row)
    for at, byte in enumerate(row):
        left = out[at - size] if at >= size else 0
        corner = above[at - size] if at >= size else 0
        guess = left + above[at] - corner
        nearest = min((left, above[at], corner), key=lambda other: abs(guess - other))
        out[at] = (byte + (0, left, above[at], (left + above[at]) // 2, nearest)[kind]) % 256
    return out


def main(*words):
    path = words[-1]
    with open(path, "rb") as file:
        data = file.read()
    if inner := re.search(rb"data:image/png;base64,([^'\"]*)", data):
        data = base64.b64decode(inner[1])
    if data[:8] != b"\x89PNG\r\n\x1a\n":
        sys.exit(f"{path}: not a PNG")
    parts = list(chunks(data))
    if words[0] == "--text":
        print("\n".join(part.split(b"\0", 5)[-1].decode() for name, part in parts if name == b"iTXt"))
        return
    wide, high, depth, kind = struct.unpack(">IIBB", parts[0][1][:10])
    size = {2: 3, 6: 4}[kind]
    rows = zlib.decompress(b"".join(part for name, part in parts if name == b"IDAT"))
    counts, row = collections.Counter(), bytes(wide * size)
    for at in range(high):
        start = at * (wide * size + 1)
        row = unfiltered(rows[start], rows[start + 1:start + 1 + wide * size], row, size)
        counts.update(bytes(row[dot:dot + 3]).hex() for dot in range(0, len(row), size))
    print(" ".join(f"{name} {counts[colour]}" for colour, name in COLOURS.items()), f"of {wide} {high}")


if __name__ == "__main__":
    main(*sys.argv[1:])
