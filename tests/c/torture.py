#!/usr/bin/env python3
"""Compiles gcc's own execution tests with tools/cc: `torture.py FOLDER [FIRST EVERY]`.

FOLDER is gcc.c-torture/execute from gcc's sources, as in Debian's package gcc-12-source. Each test returns 0 or calls
exit(0), and calls abort if the compiler is wrong. It passes if its object is accepted and verified, and does not
abort."""
import collections
import os
import re
import subprocess
import sys
import tempfile

from tries import CC, LEVELS, TALFT

# What the tests need from a C library. A test that ends early stores a word that says how.
LIBRARY = """
volatile unsigned long long ended __attribute__((aligned(8)));
_Noreturn void abort(void) { ended = 2; __builtin_trap(); }
_Noreturn void exit(int status) { ended = status ? 2 : 1; __builtin_trap(); }
int strcmp(const char *a, const char *b) {
  while (*a && *a == *b) a++, b++;
  return *(unsigned char *)a - *(unsigned char *)b;
}
char *strcpy(char *to, const char *from) { char *at = to; while ((*at++ = *from++)); return to; }
"""


def ended(line):
    return re.match(r"ended(_\w+)? ", line)


def tried(path, level, folder):
    """The outcome in a word, and the last message."""
    source, made = os.path.join(folder, "program.c"), os.path.join(folder, "object")
    with open(source, "w", encoding="utf-8") as out:
        out.write(f'{LIBRARY}#include "{os.path.abspath(path)}"\n')
    run = subprocess.run([CC, source, level, "-w", "-fwrapv", "-std=gnu89",
                          "--stack", "1024", "-o", made],
                         stdout=subprocess.PIPE, stderr=subprocess.PIPE, text=True)
    said = run.stderr.strip().splitlines()[-1][-220:] if run.stderr.strip() else ""
    if run.returncode:
        return ("clang refuses" if "clang cannot compile" in said else "wrong" if "report it" in said else "refused"), said
    if "; verified" not in run.stderr:
        return "not verified", said
    done = subprocess.run([TALFT, "run", made, "--steps", "1000000"], stdout=subprocess.PIPE, text=True)
    told = [line for line in done.stdout.splitlines() if ended(line)]
    if done.returncode == 0 and not told or told and told[-1].endswith(" 1"):
        return "passed", None
    return ("aborted" if told else "not ended"), said


def main(folder, first="0", every="1"):
    names = sorted(name for name in os.listdir(folder) if name.endswith(".c"))
    counts = collections.Counter()
    with tempfile.TemporaryDirectory() as work:
        for number in range(int(first), len(names), int(every)):
            level = LEVELS[number // int(every) % len(LEVELS)]
            word, said = tried(os.path.join(folder, names[number]), level, work)
            counts[word] += 1
            print(f"{names[number]} {level}: {word}" + (f": {said}" if said else ""), flush=True)
    print(f"{sum(counts.values())} programs: " + ", ".join(f"{word} {n}" for word, n in sorted(counts.items())))


if __name__ == "__main__":
    main(*sys.argv[1:])
