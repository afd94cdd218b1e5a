#!/usr/bin/env python3
"""Generates C programs with csmith, and compiles them with tools/cc: `csmith.py FIRST COUNT`.

At its end, each program stores its variables in one word. gcc -m32, whose `long` is as long as for wasm32, must give
the same words. Programs that do not end, or that gcc cannot compile, are left out."""
import os
import re
import subprocess
import sys

from tries import compiled, lines_of, try_each

SMALL = ("--no-argc --no-checksum --no-float --concise --max-funcs 4 --max-block-size 3 --max-block-depth 3 "
         "--max-expr-complexity 6 --max-array-dim 2 --max-array-len-per-dim 5 --max-pointer-depth 2 "
         "--max-struct-fields 4 --max-union-fields 3").split()
HEADER = """
#include <float.h>
#include <limits.h>
#include <stdint.h>
#define fabsf __builtin_fabsf
#define fabs __builtin_fabs
float ldexpf(float, int);
double ldexp(double, int);
#define STATIC static
#define UNDEFINED(value) (value)
#define LOG_INDEX
#define LOG_EXEC
#define FUNC_NAME(x) (safe_##x)
#define assert(x)
#include "safe_math.h"
#define platform_main_begin()
#define platform_main_end(x, flag)
#ifdef __wasm__
extern volatile uint64_t csmith_sink_;
#define SINK(x) (csmith_sink_ = (uint64_t)(x))
#else
int printf(const char *, ...);
#define SINK(x) printf("csmith_sink_ %llu\\n", (unsigned long long)(x))
#endif
"""


def program(seed, folder):
    # csmith leaves a file `platform.info` in its working folder.
    made = subprocess.run(["csmith", "--seed", str(seed), *SMALL], stdout=subprocess.PIPE, text=True, check=True,
                          cwd=folder).stdout
    made = re.sub(r"^(\s+)csmith_sink_ = (.*);$", r"\1SINK(\2);", made, flags=re.MULTILINE)
    made = made.replace('#include "csmith.h"', HEADER)
    made = made.replace("uint64_t csmith_sink_ = 0;", "uint64_t csmith_sink_ __attribute__((aligned(8))) = 0;")
    source = os.path.join(folder, "program.c")
    with open(source, "w", encoding="ascii") as out:
        out.write(made)
    return source


def native(source, folder):
    """What gcc's program writes, or None if it cannot be compiled or does not end."""
    made = os.path.join(folder, "native")
    words = ["gcc", "-m32", "-w", "-O1", "-fwrapv", "-fno-strict-aliasing", "-I/usr/include/csmith", source, "-o", made]
    if subprocess.run(words, stderr=subprocess.DEVNULL).returncode:
        return None
    try:
        done = subprocess.run([made], stdout=subprocess.PIPE, text=True, timeout=1)
    except subprocess.TimeoutExpired:
        return None
    return done.stdout if done.returncode == 0 else None


def tried(seed, level, folder):
    source, made = program(seed, folder), os.path.join(folder, "object")
    wanted = native(source, folder)
    if wanted is None:
        return "left out", None
    # If the stack is too small, it overwrites data, in the module as in the object: such a program gets a larger one.
    for stack in 1024, 2048:
        failed = compiled(source, level, made, "-w", "-fwrapv", "-fno-strict-aliasing", "-I/usr/include/csmith", stack=stack)
        if failed:
            return failed[0], re.sub(r".*(function \S+: offset \S+: |\.c: )", "", failed[1])[-160:]
        if lines_of(made, ("csmith_sink_",)) == wanted.splitlines():
            return ("same" if stack == 1024 else "same with a larger stack"), None
    return "wrong", "its lines are not those of gcc"


def main(first, count):
    try_each(tried, range(int(first), int(first) + int(count)))


if __name__ == "__main__":
    main(*sys.argv[1:])
