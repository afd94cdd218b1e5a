#!/usr/bin/env python3
"""Compares the program with worked rows: arguments, output and status.

    tests/rows.py PROGRAM

Each file in tests/rows/ is a table. A row has the status, the arguments, the output and the input, separated by `|`. A
line feed is written `\\n`. The head of a table says what the input is: standard input, or a named file. The worked
objects are in the same folder as that file, named as in crates/ft_worked_objects. Rows whose files are generated are in
rows_made.py. The values come from the definitions and from another implementation. Writes a line for each row that
fails, and finally how many passed and failed.
"""
import os
import re
import subprocess
import sys
import tempfile

import rows_made

TOP = os.path.dirname(os.path.dirname(os.path.abspath(__file__)))


def literal(text):
    """The bytes of a Rust byte string, in which the escape `\\0` ends after the 0."""
    marks = {"0": b"\0", "n": b"\n", "r": b"\r", "t": b"\t"}
    made = b""
    for byte, mark, plain in re.findall(r"\\x([0-9a-f]{2})|\\([^\n])|\\\n\s*|([^\\])", text):
        made += bytes([int(byte, 16)]) if byte else marks.get(mark, mark.encode()) if mark else plain.encode()
    return made


def worked_objects():
    """The worked objects, by name."""
    with open(os.path.join(TOP, "crates/ft_worked_objects/src/lib.rt"), encoding="utf-8") as file:
        constants = re.findall(r'pub const (\w+): &\[u8\] =\s*b"((?:[^"\\]|\\.)*)"', file.read(), re.S)
    objects = {name: literal(text) for name, text in constants}
    for name in ("TWICE", "OVER", "LOOP"):
        objects[name.lower()] = objects.pop(name)
    # `BRANCH` with the two words that it tests.
    for name, green, blue in (("taken", 0, 0), ("passed", 1, 1), ("green", 0, 1), ("blue", 1, 0)):
        objects[name] = rows_made.altered(objects["BRANCH"], (119, green), (151, blue))
    return objects


class Calls:
    """Calls the program in a folder of its own, and counts the rows that pass and fail."""

    def __init__(self, program, folder, objects):
        self.program, self.folder, self.objects = program, folder, objects
        self.passed = self.failed = 0
        for name, content in objects.items():
            self.add(name, content)

    def add(self, name, content):
        """Puts a file into the folder."""
        with open(os.path.join(self.folder, name), "wb") as file:
            file.write(content)

    def answer(self, words, script=b""):
        """What the program writes for these arguments, and its status."""
        done = subprocess.run(
            [self.program, *words], cwd=self.folder, input=script, capture_output=True, timeout=60, check=False
        )
        return done.stdout, done.returncode

    def expect(self, words, text, status, script=b""):
        """Compares a row, and counts it."""
        got = self.answer(words, script)
        wanted = (text, status)
        self.count(got == wanted, f"{' '.join(words)}: wanted {str(wanted)[:200]}, got {str(got)[:200]}")

    def count(self, holds, what):
        """Counts a row as passed or failed."""
        if holds:
            self.passed += 1
        else:
            self.failed += 1
            print(f"FAILED {what}")


def unescaped(text):
    return text.replace("\\n", "\n").encode()


def compare_table(calls, path):
    """Compares the rows of one table."""
    with open(path, encoding="utf-8") as file:
        lines = file.read().splitlines()
    named = re.search(r"the file `(\w+)`", lines[1])
    for line in lines:
        if not line or line.startswith("#"):
            continue
        status, words, text, over = (line.split("|", 3) + [""])[:4]
        over = unescaped(over[1:])
        if named:
            calls.add(named.group(1), over)
        calls.expect(words.split(), unescaped(text.strip()), int(status), b"" if named else over)


def main():
    if len(sys.argv) != 2:
        sys.exit("tests/rows.py: usage: tests/rows.py PROGRAM")
    folder_of_tables = os.path.join(TOP, "tests/rows")
    with tempfile.TemporaryDirectory() as folder:
        calls = Calls(os.path.abspath(sys.argv[1]), folder, worked_objects())
        for name in sorted(os.listdir(folder_of_tables)):
            compare_table(calls, os.path.join(folder_of_tables, name))
        rows_made.compare(calls)
    print(f"{calls.passed} passed, {calls.failed} failed")
    sys.exit(calls.failed != 0)


if __name__ == "__main__":
    main()
