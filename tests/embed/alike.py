#!/usr/bin/env python3
"""Compares the output and the status of two programs, on objects and on damaged objects.

    alike.py COUNT TALFT OTHER.. -- FILE..

OTHER may have words before the program, such as `qemu-aarch64`. Both compile the sources and assemble the texts among
the files, and compile random sources until COUNT of them have objects. COUNT more objects are made from those of the
files by changing a few bytes. Random numbers come from a fixed seed."""
import os
import random
import subprocess
import sys
import tempfile

sys.path.insert(0, os.path.join(os.path.dirname(os.path.abspath(__file__)), os.pardir, "debugging"))
from random_sources import Source

CALLS = (
    ["check", "OBJECT"], ["run", "OBJECT", "--steps", "20000"], ["dis", "OBJECT"], ["upgrade", "OBJECT"],
    ["run", "OBJECT", "--steps", "20000", "--fault", "7:r33:99", "--wild", "5,stop"],
    ["recover", "OBJECT", "--steps", "20000", "--fault", "9:r1:77"], ["schedule", "OBJECT"],
    ["campaign", "OBJECT", "--faults", "FAULTS", "--steps", "5000"],
)
FAULTS = "0:r0:1\n7:r33:18446744073709551615\n20:pcg:3\n31:d:9\n44:qv0:1\n9:r1:77\n"


def answer(program, words):
    run = subprocess.run([*program, *words], stdin=subprocess.DEVNULL, stdout=subprocess.PIPE, stderr=subprocess.DEVNULL)
    return run.returncode, run.stdout


class Comparison:
    def __init__(self, first, second, folder):
        self.programs, self.folder, self.calls = (first, second), folder, 0
        self.faults = self.put("faults", FAULTS.encode())

    def put(self, name, data):
        path = os.path.join(self.folder, name)
        with open(path, "wb") as out:
            out.write(data)
        return path

    def compare(self, words):
        one, other = (answer(program, words) for program in self.programs)
        self.calls += 1
        if one != other:
            sys.exit(f"{' '.join(words)}: {one[0]} and {other[0]}, {len(one[1])} and {len(other[1])} bytes")
        return one

    def compare_object(self, path, calls):
        for call in calls:
            self.compare([{"OBJECT": path, "FAULTS": self.faults}.get(word, word) for word in call])


def contents(path):
    with open(path, "rb") as file:
        return file.read()


def damaged(data, draw):
    out = bytearray(data)
    for _ in range(draw.randint(1, 4)):
        out[draw.randrange(len(out))] = draw.randrange(256)
    return bytes(out)


def main(words):
    count, at = int(words[0]), words.index("--")
    with tempfile.TemporaryDirectory() as folder:
        both = Comparison([words[1]], words[2:at], folder)
        objects = []
        for number, path in enumerate(words[at + 1:]):
            if not path.endswith(".obj"):
                status, data = both.compare(["compile" if path.endswith(".src") else "asm", path])
                if status != 0:
                    continue
                path = both.put(f"{number}.obj", data)
            objects.append(contents(path))
            both.compare_object(path, CALLS)
        draw, left = random.Random(7), count
        while left:
            source = both.put("random.src", ("\n".join(Source(draw).lines) + "\n").encode())
            status, data = both.compare(["compile", source])
            if status == 0:
                both.compare_object(both.put("random.obj", data), CALLS)
                left -= 1
        for number in range(count):
            path = both.put("damaged.obj", damaged(objects[number % len(objects)], draw))
            both.compare_object(path, CALLS[:2])
    print(f"{both.calls} answers are the same")


if __name__ == "__main__":
    main(sys.argv[1:])
