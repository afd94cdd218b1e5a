"""Pass 7: writes the emitted code as assembly text."""
from .refused import Refused

MOST = {"instructions": 65536, "nodes": 1 << 20, "code types": 4096, "substitution rows": 1 << 20, "cells": 1024}


def return_name(k, i):
    """The cell that holds the return address of frame i of function k, counting only functions that call themselves."""
    return f"return_{k}[{i}]"


class Text:
    """`cells`: pairs of a name and an initial word. `counts` has the number of items of each kind."""

    def __init__(self, emitter, cells):
        self.emitter, self.nodes, self.cells = emitter, emitter.nodes, cells
        self.keys = [emitter.full_key(key) for key in emitter.type_keys]
        self.order = self.used()
        self.new = {n: i for i, n in enumerate(self.order)}
        self.number = {b: at for b, at, _ in emitter.heads}
        rows = sum(len(c[-1]) for c in emitter.code if c[0] in ("jmp", "bz") and c[1] == "B")
        self.counts = {"instructions": len(emitter.code), "nodes": len(self.order), "code types": len(self.keys),
                       "cells": len(cells) + len(emitter.program.recursive) * emitter.program.most,
                       "substitution rows": rows}
        for what, most in MOST.items():
            if self.counts[what] > most:
                raise Refused(f"the object has {self.counts[what]} {what}, more than {most}",
                              "make the program smaller")

    def used(self):
        """The nodes that the object needs: those of substitutions and of code types."""
        used, todo = set(), [self.emitter.memory]
        for c in self.emitter.code:
            if c[0] in ("jmp", "bz") and c[1] == "B":
                todo += [c[-2], *c[-1]]
        todo += [self.nodes.make("var", i) for key in self.keys for i in range(len(key))]
        while todo:
            n = todo.pop()
            if n not in used:
                used.add(n)
                todo += self.nodes.kids(self.nodes.rows[n])
        return sorted(used)

    def lines(self):
        entry = [b for b, _, _ in self.emitter.heads].index(self.emitter.entry)
        return [*self.cell_lines(), *map(self.node_line, self.order), *self.type_lines(), *self.code_lines(),
                f"entry {entry}"]

    def cell_lines(self):
        out, program = [f"cell {name} int {word}" for name, word in self.cells], self.emitter.program
        for k, shared in enumerate(program.recursive):
            _, kind = self.emitter.return_code(shared)
            word = 1 + self.number[self.emitter.returns[shared]]
            out += [f"cell {return_name(k, i)} code:{kind} {word}" for i in range(program.most)]
        return out

    def node_line(self, n):
        row = self.nodes.rows[n]
        if row[0] == "code":
            row = ("word", 1 + self.number[row[1]])
        elif row[0] == "rem":
            row = ("rem", self.new[row[1]], row[2])
        elif row[0] not in ("word", "var", "memory"):
            row = (row[0], *(self.new[k] for k in row[1:]))
        return f"node {self.nodes.scopes[n]} {' '.join(map(str, row))}"

    def type_lines(self):
        out = []
        for key in self.keys:
            out.append(f"type {len(key)} {self.new[self.emitter.memory]}")
            rows = sorted((pair, f"code:{kind[1]}" if isinstance(kind, tuple) else kind,
                           self.new[self.nodes.make("var", i)]) for i, (pair, kind) in enumerate(key))
            out += [f"reg r{pair} G {kind} {node}" for pair, kind, node in rows]
            out += [f"reg r{pair + 32} B {kind} {node}" for pair, kind, node in rows]
        return out

    def code_lines(self):
        """Blocks with their instructions. A comment says what a block is for; tools can read that of a trap."""
        out, heads = [], {at: (i, b, kind) for i, (b, at, kind) in enumerate(self.emitter.heads)}
        for at, c in enumerate(self.emitter.code):
            if at in heads:
                i, block, kind = heads[at]
                if block.trap:
                    func, offset, what = block.trap
                    out.append(f"# trap {i}: function {func}: offset 0x{offset:x}: {what}")
                elif block.note:
                    out.append(f"# {block.note}")
                out.append(f"block {kind}")
            out.append(self.line(c))
        return out

    def line(self, c):
        op, colour = c[0], c[1]
        side = 32 if colour == "B" else 0
        if op == "mov":
            _, _, pair, w, kind = c
            if isinstance(w, tuple):
                w, kind = 1 + self.number[w[1]], f"code:{kind[1]}"
            return f"mov r{pair + side} {colour} {w} {kind}"
        if op == "op":
            _, _, name, to, a, b = c
            last = f"{colour} {b[1]}" if isinstance(b, tuple) else f"r{b + side}"
            return f"{name} r{to + side} r{a + side} {last}"
        if op == "idx":
            return f"idx r{c[2] + side} r{c[3] + side} {c[4]} {c[5]}"
        if op == "halt":
            return "halt"
        registers = c[2:4] if op in ("ld", "st", "bz") else c[2:3]
        words = [f"{op}_{colour}", *(f"r{pair + side}" for pair in registers)]
        if op in ("jmp", "bz") and colour == "B":
            words += [str(self.new[n]) for n in (c[-2], *c[-1])]
        return " ".join(words)
