#!/usr/bin/env python3
"""Writes a table of what was proved and tried in each crate: `counts.py [LOG]`.

With the log of a gate run, the numbers come from it. Without one, they are counted in the sources: functions with
a body, wrong bodies of the gate, and tests.
"""
import collections
import glob
import os
import re
import sys

TOP = os.path.dirname(os.path.dirname(os.path.abspath(__file__)))


def crates():
    with open(os.path.join(TOP, "crates.txt"), encoding="utf-8") as lines:
        return [re.match(r"\w+", line)[0] for line in lines if re.match(r"[\w ]+:", line)]


def in_sources():
    """The counts of each crate, from its sources."""
    found = {}
    for crate in crates():
        functions = tests = 0
        for path in glob.glob(f"crates/{crate}/src/**/*.rt", root_dir=TOP, recursive=True):
            with open(os.path.join(TOP, path), encoding="utf-8") as file:
                text = file.read()
            tests += len(re.findall(r"^\s*#\[test\]", text, re.M))
            functions += len(re.findall(r"^\s*(?:pub(?:\([^)]*\))? )?(?:const )?fn \w+", text, re.M))
        edits = len(glob.glob(f"crates/{crate}/must-fail/*.edit", root_dir=TOP))
        found[crate] = (functions, edits, tests)
    return found


def in_log(lines):
    """The counts of each crate, from the output of a gate run. Functions of a crate's tests count as its own."""
    functions, edits, tests = collections.Counter(), collections.Counter(), collections.Counter()
    seen, ran = collections.defaultdict(set), 0
    for line in lines:
        if proved := re.match(r"fn ((\w+)::\S+): proved", line):
            seen[proved[2]].add(proved[1])
        elif refused := re.match(r"rt: must-fail (\w+)/\S+: refused", line):
            edits[refused[1]] += 1
        elif re.match(r"test \S+ \.\.\. ok", line):
            ran += 1
        elif passed := re.match(r"rt: (\w+): its tests passed", line):
            tests[passed[1]], ran = ran, 0
    for name, of in seen.items():
        functions[name] = len(of)
    return {name: (functions[name], edits[name], tests[name]) for name in crates()}


def main(words):
    if words:
        with open(words[0], encoding="utf-8", errors="replace") as lines:
            found = in_log(lines)
        print("What a gate run proved, refused and ran, by crate, according to its log.\n")
    else:
        found = in_sources()
        print("What the gate proves, refuses and runs, by crate, as counted in the sources.\n")
    print("| crate | functions | wrong bodies | tests |\n|---|---|---|---|")
    for crate, counts in found.items():
        print(f"| `{crate}` | {' | '.join(str(count) for count in counts)} |")
    print(f"| all | {' | '.join(str(sum(column)) for column in zip(*found.values()))} |")


main(sys.argv[1:])
