"""The text NAME.about beside an object NAME.obj: facts that are not in the object, in sections.

A section begins with a line `[NAME] SUM`: the SHA-256 of the object that it is about. Its other lines depend on its name:

    [types] SUM
    CELL OFFSET SIZE KIND EXPRESSION     which bytes of a cell's word are which scalar of the C program"""
import collections
import hashlib
import os
import re

from common import Refused, put
from kinds import kind_of_path
from messages import named

HEAD = re.compile(r"\[([a-z]+)\] ([0-9a-f]{64})")
TYPE = re.compile(r"(\S+) ([0-7]) ([1-8]) (signed|unsigned|float|bool|char|pointer) (\S+)")
# Which bytes of a cell's word are a scalar: its first byte, how many, its kind, and its expression in C.
Part = collections.namedtuple("Part", "offset size kind expression")


def path_of(object_file):
    """The name of the text beside an object."""
    return os.path.splitext(object_file)[0] + ".about"


def sum_of(data):
    """The sum of an object's bytes."""
    return hashlib.sha256(data).hexdigest()


def sections_of(path):
    """The sections of a text: for each name the sum, and its lines."""
    found, lines = {}, None
    with open(path, encoding="utf-8", errors="replace") as text:
        for number, line in enumerate(text, 1):
            line = line.rstrip("\n")
            if not line or line.startswith("#"):
                continue
            if match := HEAD.fullmatch(line):
                lines = []
                found[match[1]] = match[2], lines
            elif lines is None:
                kind = kind_of_path(path)
                told = f"this is {kind}: " if kind else ""
                raise Refused(f"{named(path)}:{number}: {told}expected a section, as `[types] SUM`")
            else:
                lines.append(line)
    return found


def write(path, sections):
    """Writes sections: for each name the sum, and its lines."""
    text = "".join(f"[{name}] {total}\n" + "".join(f"{line}\n" for line in lines) for name, (total, lines) in sections.items())
    put(path, b"# Facts about an object that are not in it; written by talft's tools.\n" + text.encode())


def types_of(lines, path):
    """The parts of each cell's word, by the cell's name."""
    found = {}
    for line in lines:
        match = TYPE.fullmatch(line)
        if not match or int(match[2]) + int(match[3]) > 8:
            raise Refused(f"{named(path)}: a line of [types] is damaged: {named(line)}")
        found.setdefault(match[1], []).append(Part(int(match[2]), int(match[3]), match[4], match[5]))
    return found


def types_beside(object_file, data):
    """The parts of each cell's word by the text beside an object; empty if there is no such text about it."""
    path = path_of(object_file)
    total, lines = sections_of(path).get("types", (None, [])) if os.path.isfile(path) else (None, [])
    return types_of(lines, path) if total == sum_of(data) else {}


def carried(object_file, data, new_file, new_data):
    """Writes the text about a new object that has the cells of another one, if there is a text about that one. Returns
    whether it did."""
    path = path_of(object_file)
    if not os.path.isfile(path) or not os.path.isfile(object_file):
        return False
    sections = {name: (sum_of(new_data), lines) for name, (total, lines) in sections_of(path).items() if total == sum_of(data)}
    if sections:
        write(path_of(new_file), sections)
    return bool(sections)
