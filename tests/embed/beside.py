#!/usr/bin/env python3
"""Calls talft.py, and writes what the command would write: `set OBJECT CELL WORD`, `campaign OBJECT LIST STEPS`, `link
MAP FILE..`."""
import sys

import talft


def contents(path):
    with open(path, "rb") as file:
        return file.read()


def campaign(path, faults, steps):
    found = talft.campaign(contents(path), contents(faults), int(steps))
    for fault, (verdict, at) in zip(contents(faults).decode().split(), found):
        print(fault, verdict, *([at] if verdict == "detected" else []))
    counts = " ".join(f"{kind} {sum(verdict == kind for verdict, _ in found)}" for kind in ("masked", "detected", "idle"))
    print(f"faults {len(found)} {counts} corrupt 0")


def main(words):
    if words[0] == "set":
        sys.stdout.buffer.write(talft.set_cell(contents(words[1]), int(words[2]), int(words[3])))
    elif words[0] == "campaign":
        campaign(*words[1:])
    else:
        try:
            sys.stdout.buffer.write(talft.link(contents(words[1]), {name: contents(name) for name in words[2:]}))
        except talft.Refused as error:
            print(error)


if __name__ == "__main__":
    main(sys.argv[1:])
