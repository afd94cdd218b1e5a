#!/usr/bin/env python3
"""Runs a command, and writes a table of the processor minutes that the prover took for each crate.

    tests/times.py OUT COMMAND..

for example `tests/times.py times.md rt ci`, with --anew if the kit keeps proofs. It looks at all processes of the
prover twice a second, so it also counts proofs of other runs: run it alone. The table OUT has each crate's minutes in
the order of crates.txt, for its proof, tests and wrong bodies, their sum, and how long the command took. The status is
the command's.
"""
import os
import re
import subprocess
import sys
import threading
import time

TOP = os.path.dirname(os.path.dirname(os.path.abspath(__file__)))
TICKS = os.sysconf("SC_CLK_TCK")
PARTS = ("proof", "tests", "wrong bodies")


def part_of(words):
    """The crate and the part that a process works on, if it is one of the prover."""
    if not words or os.path.basename(words[0]) != "rattle" or "--crate-name" not in words:
        return None
    crate = words[words.index("--crate-name") + 1]
    if any("rt-edit" in word for word in words):
        return crate, PARTS[2]
    return crate, PARTS["--test" in words]


def look(seen):
    """Notes how much time each process of the prover has taken so far, including its ended children."""
    for pid in filter(str.isdigit, os.listdir("/proc")):
        try:
            with open(f"/proc/{pid}/cmdline", "rb") as file:
                part = part_of(file.read().decode(errors="replace").split("\0"))
            if part is None:
                continue
            folder = os.readlink(f"/proc/{pid}/cwd")
            with open(f"/proc/{pid}/stat", encoding="utf-8") as file:
                fields = file.read().rpartition(")")[2].split()
        except OSError:
            continue
        if "rt-edit" in folder:
            part = part[0], PARTS[2]
        seen[pid, fields[19]] = part, sum(map(int, fields[11:15])) / TICKS


def watched(command):
    """What the prover's processes took during the command, its status, and how long it ran."""
    seen, ended = {}, threading.Event()

    def watch():
        while not ended.wait(0.5):
            look(seen)

    watcher = threading.Thread(target=watch)
    watcher.start()
    start = time.monotonic()
    status = subprocess.run(command, check=False).returncode
    ended.set()
    watcher.join()
    return seen, status, time.monotonic() - start


def table(seen, seconds):
    """The lines of the table."""
    taken = {}
    for part, time_taken in seen.values():
        taken[part] = taken.get(part, 0) + time_taken / 60
    with open(os.path.join(TOP, "crates.txt"), encoding="utf-8") as file:
        crates = re.findall(r"^(\w+)(?: staticlib)?:", file.read(), re.M)
    yield "| crate | " + " | ".join(PARTS) + " | minutes |"
    yield "|---" * (len(PARTS) + 2) + "|"
    for crate in [*crates, "all"]:
        each = [sum(taken.get((name, part), 0) for name in (crates if crate == "all" else [crate])) for part in PARTS]
        cells = [f"{minutes:.1f}" if minutes else "" for minutes in each]
        yield f"| {crate if crate == 'all' else f'`{crate}`'} | " + " | ".join([*cells, f"{sum(each):.1f}"]) + " |"
    yield ""
    yield f"It took {seconds / 60:.0f} minutes on {os.cpu_count()} processors."


def main():
    if len(sys.argv) < 3:
        sys.exit("tests/times.py: usage: tests/times.py OUT COMMAND..")
    seen, status, seconds = watched(sys.argv[2:])
    with open(sys.argv[1], "w", encoding="utf-8") as file:
        file.write("\n".join(table(seen, seconds)) + "\n")
    sys.exit(status)


if __name__ == "__main__":
    main()
