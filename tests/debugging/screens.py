#!/usr/bin/env python3
"""Shows the debugger's screen in pseudo-terminals of two sizes, and tests what is drawn where, and in which colour.

    python3 tests/debugging/screens.py DEBUGGER SOURCE

SOURCE is examples/fibonacci.src. The last line is the number of checks, and of those that failed."""
import re
import sys

from terminal import shown

FAULT = "296:r32:7"
GREEN, BLUES = 32, (34, 94)


def checks(terminal, wide, high):
    """(what, whether it holds) of a screen."""
    lines = terminal.lines()
    yield "the title is whole", " at 328 detected   the machine has stopped itself: e says why" in lines[0]
    yield "the timeline ends in the last column", lines[high - 4].endswith("- 934 steps")
    yield "the timeline begins in the first column", lines[high - 4].startswith("0 -")
    yield "the keys fill the last line", len(lines[-1].rstrip()) >= wide - 12 and "e explain" in lines[-1]
    yield "the longest instruction is whole", any("mov r36 B 1048576 ref:int" in line for line in lines)
    yield "both halves of a pair have their names", any(re.search(r"r4  G 1048576 out +r36 B 1048576 out", line) for line in lines)
    words = [line[line.index("|"):].rstrip() for line in lines[1:high - 4]]
    yield "the words reach the right edge", max(len(line.rstrip()) for line in lines[1:high - 4]) >= wide - 1
    yield "no word is cut", not any("…" in line for line in words)
    yield "a green word is green", terminal.ink_of("r3  G 3") == {GREEN}
    yield "a blue word is blue", any(terminal.ink_of("r35 B 3") == {blue} for blue in BLUES)
    yield "a green store is green", terminal.ink_of("st_G r4 r5") == {GREEN}
    yield "a green sum is green", terminal.ink_of("add r2 r5 G 0") == {GREEN} or high < 30
    yield "a blue comparison is blue", any(terminal.ink_of("ltu r37 r37 r38") == {blue} for blue in BLUES) or high < 30
    yield "a blue branch is blue", any(terminal.ink_of("bz_B r37 r36") == {blue} for blue in BLUES)


def main(debugger, source):
    count = failed = 0
    for wide, high in ((80, 24), (100, 30)):
        terminal = shown([debugger, source, "--tui", "--fault", FAULT], wide, high)
        for what, holds in checks(terminal, wide, high):
            count += 1
            if not holds:
                failed += 1
                print(f"{wide}x{high}: not so: {what}")
        if failed:
            print("\n".join(terminal.lines()))
    print(f"{count} checks: {failed} failed")


if __name__ == "__main__":
    main(*sys.argv[1:])
