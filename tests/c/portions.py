#!/usr/bin/env python3
"""Runs a long test in portions: `portions.py KIND FIRST COUNT [JOBS [FOLDER]]`; KIND is valid, damaged, programs or csmith.

JOBS portions run at once. FOLDER keeps the output of each: after a stop, the same command runs only the missing ones.
At the end, all lines are printed, with the sums of their counts."""
import collections
import concurrent.futures
import os
import re
import subprocess
import sys
import tempfile

here = os.path.dirname(os.path.abspath(__file__))
SIZES = {"valid": 50, "damaged": 500, "programs": 20, "csmith": 20}


def called(name, *words):
    words = [sys.executable, "-B", os.path.join(here, name), *map(str, words)]
    return subprocess.run(words, stdout=subprocess.PIPE, stderr=subprocess.STDOUT, text=True, check=False).stdout


def portion(kind, first, count):
    """What a portion prints."""
    if kind in ("programs", "csmith"):
        return called(kind + ".py", first, count)
    with tempfile.TemporaryDirectory() as folder:
        called("modules.py", folder, first, count, kind)
        names = [os.path.join(folder, f"{number}.wasm") for number in range(first, first + count)]
        return called("tried.py", kind, *names)


def done(kind, first, count, folder):
    """The lines of a portion, kept or new."""
    kept = os.path.join(folder, f"{kind}-{first}-{count}")
    if not os.path.exists(kept):
        lines = portion(kind, first, count)
        with open(kept + ".new", "w", encoding="utf-8") as out:
            out.write(lines)
        os.replace(kept + ".new", kept)
    with open(kept, encoding="utf-8") as lines:
        return lines.read().splitlines()


def main(kind, first, count, jobs="1", folder=None):
    first, last, size, sums = int(first), int(first) + int(count), SIZES[kind], collections.Counter()
    firsts = range(first, last, size)
    with tempfile.TemporaryDirectory() as temporary, concurrent.futures.ThreadPoolExecutor(int(jobs)) as pool:
        folder = folder or temporary
        os.makedirs(folder, exist_ok=True)
        for lines in pool.map(lambda n: done(kind, n, min(size, last - n), folder), firsts):
            print("\n".join(lines[:-1]), end="\n" if lines[1:] else "")
            counts = re.match(r"\d+ (?:programs|modules): (.*)", lines[-1] if lines else "")
            if not counts:
                print(f"failed: {lines[-1] if lines else 'nothing was printed'}")
                sums["failed"] += 1
                continue
            for count, word in re.findall(r"(\d+) (files left behind)", counts[1]):
                sums[word] += int(count)
            for word, count in re.findall(r"([a-z?][a-z ?]*) (\d+)(?=,|;|$)", counts[1]):
                sums[word] += int(count)
    print(f"{last - first} {kind}: " + ", ".join(f"{word} {n}" for word, n in sorted(sums.items())))


if __name__ == "__main__":
    main(*sys.argv[1:])
