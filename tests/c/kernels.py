#!/usr/bin/env python3
"""Compiles the examples with tools/cc at each level, strikes each 1,000 times, and prints a table: `kernels.py [LEVEL ..]`.

The lines must be those of answers.py, the object must be accepted and verified, and no fault may be corrupt. The ratio
is the number of instructions that the object runs, in both colours, to those that the module runs. The example in Rust
is included if $RUSTC, or rustc, can compile for wasm32."""
import glob
import math
import os
import re
import shutil
import subprocess
import sys
import tempfile

from tries import CC, LEVELS, TALFT, here, top

DIVIDE = "divide", "kalman"
SAID = re.compile(r"accepted: (\d+) instructions, .* (\d+) cells?; (?:.*; )?verified: (\d+) stores in (\d+) steps "
                  r"match the module's, which ran (\d+) instructions")


def run(*words):
    done = subprocess.run(words, stdout=subprocess.PIPE, stderr=subprocess.PIPE, text=True)
    return done.stdout, done.stderr


def struck(made, folder, steps):
    """The verdicts of 1,000 faults."""
    faults, _ = run(os.path.join(top, "tools", "faults"), made, "--flip", "all", "--sample", "1000", "--seed", "7")
    with open(os.path.join(folder, "faults"), "w", encoding="ascii") as out:
        out.write(faults)
    said, why = run(TALFT, "campaign", made, "--faults", os.path.join(folder, "faults"), "--steps", str(steps + 10))
    verdict = re.search(r"faults (\d+) masked (\d+) detected (\d+) idle 0 corrupt 0$", said.strip())
    return verdict and verdict.groups()[1:], (said + why).strip()[-200:]


def of_rust(name, level, folder):
    """The module that rustc makes from an example, as the example's head comment says; or None if it fails."""
    module = os.path.join(folder, "module.wasm")
    run(os.environ.get("RUSTC", "rustc"), "--target", "wasm32-unknown-unknown", "--crate-type", "cdylib", "-C",
        "opt-level=" + level[2:], "-C", "panic=abort", "-C", "linker=wasm-ld", "-C", "link-arg=--emit-relocs",
        "-C", "link-arg=-zstack-size=512", os.path.join(top, "examples", "rust", name), "-o", module)
    return module if os.path.exists(module) else None


def tried(name, level, folder):
    """The row of a program, or what is wrong with it."""
    made, words = os.path.join(folder, "object"), [os.path.join(top, "examples", "c", name + ".c"), level]
    if name.endswith(".rs"):
        words = [of_rust(name, level, folder)]
        name = name[:-3]
    _, said = run(CC, *words, "-o", made)
    found = SAID.search(said)
    if not found:
        return None, said.strip()[-300:]
    instructions, cells, stores, steps, ran = map(int, found.groups())
    lines, _ = run(TALFT, "run", made, "--steps", "10000000")
    if name != "control":
        wanted, _ = run(sys.executable, os.path.join(here, "answers.py"), name)
        names = {line.split(" ")[0] for line in wanted.splitlines()}
        if [line for line in lines.splitlines() if line.split(" ")[0] in names] != wanted.splitlines():
            return None, "its lines are not those of answers.py"
    verdict, why = struck(made, folder, steps)
    if not verdict:
        return None, why
    spills = len(lines.splitlines()) - stores
    return (instructions, cells, ran, steps, steps / 2 / ran, stores, spills, *map(int, verdict)), None


def programs():
    """The names of the examples."""
    # A program for `cc` includes cells.h. The others use the C library of talft.
    names = sorted(os.path.basename(path)[:-2] for path in glob.glob(os.path.join(top, "examples", "c", "*.c"))
                   if '#include "cells.h"' in open(path, encoding="utf-8").read())
    with tempfile.TemporaryDirectory() as folder:
        if shutil.which(os.environ.get("RUSTC", "rustc")) and of_rust("crc32.rs", "-O2", folder):
            return names + ["crc32.rs"]
    print("rustc for wasm32 is not there: crc32.rs is left out")
    return names


def main(levels):
    wrong, names = 0, programs()
    for level in levels or LEVELS:
        print(f"\n`{level}`\n\n| program | instructions | cells | the module runs | steps | ratio | stores | others | "
              "masked | detected |\n" + "|---" * 10 + "|")
        ratios = {}
        for name in names:
            with tempfile.TemporaryDirectory() as folder:
                row, why = tried(name, level, folder)
            if row:
                if not name.endswith(".rs"):
                    ratios[name] = row[4]
                print(f"| {name} | " + " | ".join(f"{n:.2f}" if isinstance(n, float) else f"{n:,}" for n in row) + " |")
            else:
                wrong += 1
                print(f"| {name} | WRONG: {why} |")
            sys.stdout.flush()
        some = [math.log(ratio) for name, ratio in ratios.items() if name not in DIVIDE]
        if some:
            mean, every = math.exp(sum(some) / len(some)), sum(map(math.log, ratios.values())) / len(ratios)
            print(f"\nGeometric mean of the ratios: {math.exp(every):.2f}; without {' and '.join(DIVIDE)}: {mean:.2f}")
    print(f"{wrong} wrong")


if __name__ == "__main__":
    main(sys.argv[1:])
