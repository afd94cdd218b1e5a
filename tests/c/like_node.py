#!/usr/bin/env python3
"""Compares the interpreter with node's WebAssembly: `like_node.py MODULE..` prints the differences and their number."""
import os
import subprocess
import sys

here = os.path.dirname(os.path.abspath(__file__))
sys.path.insert(0, os.path.join(here, "..", "..", "tools"))
from wasm.decoder import Module
from wasm.interpreter import Interpreter


def mine(name):
    with open(name, "rb") as file:
        program = Interpreter(Module(file.read()))
    how, _, results = program.run("run")
    return f"{'done' if how == 'done' else 'trap'} {results[0] if results else '-'} {program.memory[1024:1280].hex()}"


def main(names):
    differ = traps = 0
    for at in range(0, len(names), 200):
        some = names[at:at + 200]
        said = subprocess.run(["node", os.path.join(here, "with_node.js"), *some], stdout=subprocess.PIPE, text=True,
                              check=True).stdout.splitlines()
        if len(said) != len(some):
            sys.exit(f"node answers {len(said)} times for {len(some)} modules")
        for name, line in zip(some, said):
            traps += line.startswith("trap")
            if line.startswith("invalid") or line != mine(name):
                differ += 1
                print(f"{name}: {line[:100]}, and not {mine(name)[:100] if not line.startswith('invalid') else ''}")
    print(f"{len(names)} modules, {traps} trap, {differ} differ")


if __name__ == "__main__":
    main(sys.argv[1:])
