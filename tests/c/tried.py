#!/usr/bin/env python3
"""Translates many modules with tools/cc, and counts the outcomes: `tried.py valid|damaged MODULE..`.

A valid module must be accepted, and its object must run as it does. A damaged one may be refused, in one line. No
module may have another outcome, or leave a file behind."""
import collections
import contextlib
import importlib.machinery
import importlib.util
import io
import os
import re
import sys
import tempfile
import traceback

here = os.path.dirname(os.path.abspath(__file__))
sys.path.insert(0, os.path.join(here, "..", "..", "tools"))
sys.dont_write_bytecode = True
import places           # noqa: E402
places.watch()
loader = importlib.machinery.SourceFileLoader("cc", os.path.join(here, "..", "..", "tools", "cc"))
spec = importlib.util.spec_from_loader("cc", loader)
cc = importlib.util.module_from_spec(spec)
loader.exec_module(cc)
KIND = re.compile(r"not verified|verified( up to the trap| as far as it ran| as far as it stores|)")


def answer(words):
    """What cc says, and whether it made the object."""
    said = io.StringIO()
    with contextlib.redirect_stderr(said):
        try:
            cc.main(words)
        except cc.Refused as refused:
            return str(refused), False
    return said.getvalue(), True


def tried(name, damaged, out):
    """The outcome in a word, and what is wrong with it."""
    try:
        said, made = answer([name, "--entry", "run", "-o", out, "--steps", "200000"])
    except Exception:       # any other exception is a failure
        return "failed", traceback.format_exc().splitlines()[-1]
    if not made:
        fair = (damaged or "outside the memory" in said) and "report it" not in said
        return "refused", None if fair and len(said.splitlines()) == 1 else said
    return (KIND.search(said) or ["?"])[0], None


def main(how, names):
    counts = collections.Counter()
    with tempfile.TemporaryDirectory() as folder:
        tempfile.tempdir = os.path.join(folder, "temporary")
        os.mkdir(tempfile.tempdir)
        for name in names:
            word, wrong = tried(name, how == "damaged", os.path.join(folder, "object"))
            counts[word] += 1
            if wrong:
                counts["wrong"] += 1
                print(f"{name}: {word}: {wrong.strip()[:300]}")
        left = os.listdir(tempfile.tempdir)
    print(f"{len(names)} modules: " + ", ".join(f"{word} {n}" for word, n in sorted(counts.items())) +
          f"; {len(left)} files left behind")


if __name__ == "__main__":
    sys.setrecursionlimit(20000)
    main(sys.argv[1], sys.argv[2:])
