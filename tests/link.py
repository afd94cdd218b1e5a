"""Links modules as texts: `link.py MAP` writes the assembly text of the object that a map links. The texts of the
modules, as `talft dis` writes them, are next to the objects: MODULE.asm next to MODULE.obj. This linker is written
from the rules alone, and refuses nothing."""
import sys


class Module:
    """A module's lines, by their tables, and how many of each kind come before it."""

    def __init__(self, path, before):
        self.cells, self.nodes, self.types, self.blocks, self.entry = [], [], [], [], 0
        self.before = dict(before)
        with open(path, encoding="ascii") as text:
            for line in text:
                if (words := line.split()) and not words[0].startswith("#"):
                    self.take(words)
        self.starts = [1 + sum(len(lines) for _, lines in self.blocks[:b]) for b in range(len(self.blocks))]

    def take(self, words):
        kind = words[0]
        if kind == "cell":
            self.cells.append(words)
        elif kind == "node":
            self.nodes.append(words)
        elif kind == "type":
            self.types.append([words])
        elif kind in ("reg", "pend"):
            self.types[-1].append(words)
        elif kind == "block":
            self.blocks.append((int(words[1]), []))
        elif kind == "entry":
            self.entry = int(words[1])
        else:
            self.blocks[-1][1].append(words)

    def after(self):
        """The counts before the next module."""
        counts = {"nodes": len(self.nodes), "types": len(self.types), "blocks": len(self.blocks),
                  "instrs": sum(len(lines) for _, lines in self.blocks)}
        return {kind: self.before[kind] + count for kind, count in counts.items()}

    def address(self, block):
        return self.before["instrs"] + self.starts[block]

    def node(self, number):
        return str(self.before["nodes"] + int(number))

    def node_line(self, words):
        kind = words[2]
        parts = {"word": 0, "var": 0, "memory": 0, "sel": 2, "upd": 3, "rem": 1}.get(kind, 2)
        return words[:3] + [self.node(part) for part in words[3:3 + parts]] + words[3 + parts:]

    def type_line(self, words):
        if words[0] == "type":
            return ["type", words[1], self.node(words[2])]
        if words[0] == "reg":
            return words[:4] + [self.node(words[4])]
        return ["pend", self.node(words[1]), self.node(words[2])]

    def instr(self, words, sent):
        if words[0] == "mov" and words[4].startswith("code:"):
            address = self.before["instrs"] + int(words[3])
            code_type = self.before["types"] + int(words[4].removeprefix("code:"))
            address, code_type = sent.get(address, (address, code_type))
            return words[:3] + [str(address), f"code:{code_type}"]
        first = {"jmp_B": 2, "bz_B": 3}.get(words[0], len(words))
        return words[:first] + [self.node(row) for row in words[first:]]


def main(path):
    modules, exports, imports = [], {}, []
    before = {"nodes": 0, "types": 0, "blocks": 0, "instrs": 0}
    with open(path, encoding="ascii") as text:
        for word, *rest in map(str.split, text):
            if word == "module":
                modules.append(Module(rest[0].removesuffix(".obj") + ".asm", before))
                before = modules[-1].after()
            elif word == "export":
                exports[rest[0]] = (len(modules) - 1, int(rest[1]))
            else:
                imports.append((len(modules) - 1, int(rest[1]), rest[0]))
    sent, entry = {}, modules[0].entry
    for module, block, name in imports:
        there, to = exports[name]
        target = modules[there]
        sent[modules[module].address(block)] = target.address(to), target.before["types"] + target.blocks[to][0]
        if (module, block) == (0, modules[0].entry):
            entry = target.before["blocks"] + to
    lines = modules[0].cells[:]
    lines += [m.node_line(words) for m in modules for words in m.nodes]
    lines += [m.type_line(words) for m in modules for rows in m.types for words in rows]
    for m in modules:
        for code_type, instrs in m.blocks:
            lines.append(["block", str(m.before["types"] + code_type)])
            lines += [m.instr(words, sent) for words in instrs]
    for words in lines + [["entry", str(entry)]]:
        print(*words)


main(sys.argv[1])
