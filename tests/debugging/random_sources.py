"""Tests tools/lines on random sources: python3 random_sources.py COUNT [SEED]. Ends with `N sources: M wrong, K lines`.

Each source that compiles must get lines, so each instruction of its object has the mnemonic and the operands that
docs/COMPILER.md gives. Each line must also be plausible for the instruction: a jump is on the line of a test or of a
brace, a store on one that assigns, and a constant that occurs only once in the source on its line."""
import os
import random
import subprocess
import sys
import tempfile

sys.path.insert(0, os.path.join(os.path.dirname(os.path.abspath(__file__)), os.pardir, os.pardir, "tools"))
from common import Refused
from debugging.target import Target, built_program

SIGNS = ["+", "-", "*", "<", "==", "&", "|", "^", "<<", ">>"]


class Source:
    """A random source; `marks` has the line of each constant that occurs only once."""

    def __init__(self, chance):
        self.chance, self.lines, self.marks = chance, [], {}
        self.cells = [f"c{i}" for i in range(chance.randrange(4))]
        self.arrays = {f"a{i}": chance.choice([1, 2, 5, 1024 - 8]) for i in range(chance.randrange(2))}
        self.variables = [f"v{i}" for i in range(chance.randrange(7))]
        declared = [f"cell {name} = {chance.randrange(9)};" for name in self.cells]
        declared += [f"cell {name}[{length}] = {chance.randrange(9)};" for name, length in self.arrays.items()]
        declared += [f"var {name};" for name in self.variables]
        chance.shuffle(declared)
        while declared:
            count = chance.randrange(1, 4)
            self.put(" ".join(declared[:count]))
            declared = declared[count:]
        for _ in range(chance.randrange(1, 9)):
            self.statement(0)

        if not self.lines:
            self.put("# nothing")

    def put(self, text):
        """Adds a line, sometimes with a comment or an empty line before it."""
        if self.chance.random() < 0.2:
            self.lines.append(self.chance.choice(["", "# a comment; if (v0) {", "   "]))
        self.lines.append(text)

    def mark(self):
        """A constant that occurs nowhere else, for the next line that is added."""
        word = 1_000_000_007 + 13 * len(self.marks)
        self.marks[word] = None
        return word

    def put_marked(self, text):
        """Adds a line with constants that occur nowhere else."""
        self.put(text)
        for word in self.marks:
            if self.marks[word] is None:
                self.marks[word] = len(self.lines)

    def expression(self, depth=0):
        """A random expression."""
        kinds = ["number", "mark"] + ["name"] * (2 if self.cells or self.variables else 0)
        kinds += ["array"] if self.arrays and depth < 2 else []
        kinds += ["operation"] * 3 + ["brackets"] if depth < 3 else []
        kind = self.chance.choice(kinds)
        if kind == "number":
            return self.chance.choice(["0", "1", "007", "18446744073709551615"])
        if kind == "mark":
            return str(self.mark())
        if kind == "name":
            return self.chance.choice(self.cells + self.variables)
        if kind == "array":
            return f"{self.chance.choice(list(self.arrays))}[{self.expression(depth + 1)}]"
        if kind == "brackets":
            return f"({self.expression(depth + 1)})"
        sign = self.chance.choice(SIGNS)
        return f"{self.expression(depth + 1)}{self.chance.choice(['', ' '])}{sign} {self.expression(depth + 1)}"

    def statement(self, depth):
        """Adds a random statement, on lines of its own."""
        kinds = ["assign"] * 4 + (["while", "if", "if else"] if depth < 3 else [])
        indent, kind = "  " * depth, self.chance.choice(kinds)
        targets = self.cells + self.variables + [f"{name}[{self.expression(2)}]" for name in self.arrays]
        if kind == "assign":
            if targets:
                self.put_marked(f"{indent}{self.chance.choice(targets)} = {self.expression()};")
            return
        self.put_marked(f"{indent}{kind.split()[0]} ({self.expression()}) {{")
        for _ in range(self.chance.randrange(3)):
            self.statement(depth + 1)
        if kind == "if else":
            self.put(f"{indent}}} else {{")
            for _ in range(self.chance.randrange(3)):
                self.statement(depth + 1)
        self.put(f"{indent}}}")

    def text(self):
        """The source."""
        return "\n".join(self.lines) + "\n"


def wrong_of(target, source):
    """What is wrong with the lines of a source, as lines."""
    if target.source is None:
        return ["no lines are known"]
    bad = []
    for instruction in target.code:
        words, line = instruction.words, instruction.source_line
        text = source.lines[line - 1]
        if words[0] == "mov" and int(words[3]) in source.marks and source.marks[int(words[3])] != line:
            bad.append(f"{instruction.text}: line {line}, not {source.marks[int(words[3])]}")
        if words[0][:3] in ("jmp", "bz_") and not any(sign in text for sign in ("while", "if", "}")):
            bad.append(f"{instruction.text}: line {line} is {text}")
        if words[0][:3] == "st_" and "=" not in text:
            bad.append(f"{instruction.text}: line {line} is {text}")
    for name, place in target.names.items():
        if place.pair is None and target.cell_at(place.address) not in (name, f"{name}[0]"):
            bad.append(f"{name}: {place.told()} is {target.cell_at(place.address)}")
    return bad


def main(count, seed="1"):
    chance, compiled, wrong, lines, program = random.Random(int(seed)), 0, 0, 0, built_program()
    with tempfile.TemporaryDirectory() as folder:
        path = os.path.join(folder, "random.src")
        while compiled < int(count):
            source = Source(chance)
            with open(path, "w", encoding="ascii") as out:
                out.write(source.text())
            words = [program, "compile", path]
            if subprocess.run(words, stdout=subprocess.DEVNULL, stderr=subprocess.DEVNULL, check=False).returncode:
                continue
            compiled += 1
            target = Target(path)
            bad = wrong_of(target, source)
            lines += len(set(instruction.source_line for instruction in target.code))
            target.close()
            if bad:
                wrong += 1
                print(f"FAILED {bad[0]} in\n{source.text()}")
    print(f"{compiled} sources: {wrong} wrong, {lines} lines")
    return 1 if wrong else 0


if __name__ == "__main__":
    try:
        sys.exit(main(*sys.argv[1:]))
    except Refused as error:
        sys.exit(f"random_sources: {error}")
