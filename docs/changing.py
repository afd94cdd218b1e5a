#!/usr/bin/env python3
"""Writes docs/CHANGING.md with its lists of files regenerated. `tests/cli.sh` checks that the file is up to date.

    python3 docs/changing.py            prints the document; redirect it to another file, since it reads the old one
    python3 docs/changing.py --counts   prints how many files each kind of change touches

Two kinds of list end at `<!-- end -->`. Both name files of crates/, lowest crate first, and look at code, definitions
and proofs outside comments.

`<!-- files: CASE.. ; FILE.. -->` introduces the files that name one of these cases.

`<!-- cases: CASE.. | CASE.. ; FILE.. -->` introduces the files that list cases: they name at least three quarters of
the cases of one of the sets between the bars. A new case changes them, as a rule: the prover refuses a match without
it, and a table needs a row for it. A file that names fewer has a catch-all clause for the others, and changes only if
that does not fit. The sets have the same cases, each under the names of one layer.

FILE.. are other files that must change: they hold the case's number, a limit on numbers, its parts or its fields.
"""
import os
import re
import sys

sys.dont_write_bytecode = True
from contracts import TOP, crates, read

DOCUMENT = "docs/CHANGING.md"
LIST = re.compile(r"<!-- (?P<kind>files|cases): (?P<names>[^>]+?) -->\n.*?<!-- end -->", re.DOTALL)
FOLDERS = ("src", "specs", "proofs")
COMMENT = re.compile(r"//.*|--.*")
SHARE = 0.75


def sources(crate):
    """The files of a crate that a change may touch, by their paths in it."""
    for folder in FOLDERS:
        for at, folders, names in os.walk(os.path.join(TOP, "crates", crate, folder)):
            folders.sort()
            for name in sorted(names):
                yield os.path.relpath(os.path.join(at, name), os.path.join(TOP, "crates", crate))


def named(text, cases):
    """How many of the cases a text names."""
    return sum(bool(re.search(rf"\b{case}\b", text)) for case in cases)


class Touched:
    """What a kind of change touches: the sets of cases, the files added by hand, and how many cases a file names."""

    def __init__(self, kind, names):
        sets, _, added = names.partition(";")
        self.sets = [words.split() for words in sets.split("|")]
        self.added = added.split()
        self.by_cases = kind == "cases"

    def is_touched(self, path):
        text = COMMENT.sub("", read(f"crates/{path}"))
        return path in self.added or any(named(text, cases) >= self.least(cases) for cases in self.sets)

    def least(self, cases):
        """How many of a set of cases a touched file names."""
        return SHARE * len(cases) if self.by_cases else 1

    def files(self):
        """The files by crate, lowest first."""
        found = {}
        for crate in crates():
            here = [path for path in sources(crate) if self.is_touched(f"{crate}/{path}")]
            if here:
                found[crate] = here
        missing = [path for path in self.added if not os.path.exists(os.path.join(TOP, "crates", path))]
        if missing:
            sys.exit(f"changing.py: no such files: {' '.join(missing)}")
        return found

    def table(self):
        """The files as lines of the document."""
        found = self.files()
        count = f"{sum(map(len, found.values()))} files in {len(found)} crates"
        cases = self.sets[0]
        if self.by_cases:
            yield f"{count} list the cases `{cases[0]}` to `{cases[-1]}`:"
        else:
            yield f"{count} name {' or '.join(f'`{case}`' for case in cases)}:"
        yield ""
        yield "| crate | files |"
        yield "|---|---|"
        for crate, here in found.items():
            yield f"| `{crate}` | {', '.join(f'`{path}`' for path in here)} |"


def made(match):
    lines = Touched(match["kind"], match["names"]).table()
    return "\n".join([f"<!-- {match['kind']}: {match['names']} -->", *lines, "<!-- end -->"])


def main(words):
    text = read(DOCUMENT)
    if words == ["--counts"]:
        for match in LIST.finditer(text):
            touched = Touched(match["kind"], match["names"])
            found = touched.files()
            print(f"{' '.join(touched.sets[0])}: {sum(map(len, found.values()))} files in {len(found)} crates")
    elif words:
        sys.exit(__doc__)
    else:
        sys.stdout.write(LIST.sub(made, text))


if __name__ == "__main__":
    main(sys.argv[1:])
