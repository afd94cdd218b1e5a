#!/usr/bin/env python3
"""Writes docs/LIMITS.md with its table regenerated from tests/limits.tsv. `tests/cli.sh` checks that it is up to date.

    python3 docs/limits.py                  writes the document
    python3 docs/limits.py OLD.tsv NEW.tsv  lists the rows that became slower or larger by more than a tenth
"""
import csv
import os
import re
import sys

TOP = os.path.dirname(os.path.dirname(os.path.abspath(__file__)))
TABLE = re.compile(r"(?<=<!-- table -->\n).*?(?=<!-- end -->)", re.DOTALL)


def read(path):
    """The rows of what tests/limits.sh wrote."""
    with open(path, encoding="utf-8") as file:
        return list(csv.DictReader(file, delimiter="\t", quoting=csv.QUOTE_NONE))


def table(rows):
    """For each command the row that takes the most time, and the one that takes the most memory."""
    yield "| command | input | size | status | seconds | MB |"
    yield "|---|---|---|---|---|---|"
    for command in dict.fromkeys(row["command"] for row in rows):
        own = [row for row in rows if row["command"] == command]
        slowest = max(own, key=lambda row: float(row["seconds"]))
        largest = max(own, key=lambda row: int(row["megabytes"]))
        for row in [slowest] if slowest is largest else [slowest, largest]:
            yield f"| `{command}` | {row['input']} | {row['size']} | {row['status']} | {row['seconds']} | {row['megabytes']} |"


def key(row):
    """What names a row."""
    return tuple(row[column] for column in ("command", "input", "words", "status", "last line"))


def worse(old, new):
    """The rows that rose by more than a tenth, and by more than the noise of the clock and of memory pages can explain."""
    before = {key(row): row for row in old}
    for row in new:
        was = before.get(key(row))
        if was is None:
            continue
        for column, least in (("seconds", 0.01), ("megabytes", 2)):
            a, b = float(was[column]), float(row[column])
            if b > 1.1 * a and b > a + least:
                yield f"{row['command']}: {row['input']}: {column} {was[column]} -> {row[column]}"


def main(words):
    if words:
        found = list(worse(read(words[0]), read(words[1])))
        print("\n".join(found) if found else "no row is slower or larger by more than a tenth")
        return 1 if found else 0
    with open(os.path.join(TOP, "docs/LIMITS.md"), encoding="utf-8") as file:
        text = file.read()
    made = "\n".join(table(read(os.path.join(TOP, "tests/limits.tsv")))) + "\n"
    sys.stdout.write(TABLE.sub(lambda _: made, text))
    return 0


if __name__ == "__main__":
    sys.exit(main(sys.argv[1:]))
