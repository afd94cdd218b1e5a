#!/usr/bin/env python3
"""Shows that a wrong translation is found: `differs.py MODULE OLD NEW` changes a number in the text and verifies it."""
import os
import subprocess
import sys
import tempfile

top = os.path.join(os.path.dirname(os.path.abspath(__file__)), "..", "..")
sys.path.insert(0, os.path.join(top, "tools"))
sys.dont_write_bytecode = True
from common import Refused, program
from wasm.translate import Options, translate
from wasm.verify import ending, verify


def main(module, old, new):
    with open(module, "rb") as file:
        data = file.read()
    translation = translate(module, data, Options(entry="run"))
    translation.text = translation.text.replace(f" {old} ", f" {new} ").replace(f" {old}\n", f" {new}\n")
    with tempfile.TemporaryDirectory() as folder:
        text, made = os.path.join(folder, "text"), os.path.join(folder, "object")
        with open(text, "w", encoding="ascii") as out:
            out.write(translation.text)
        with open(made, "wb") as out:
            subprocess.run([program(), "asm", text], stdout=out, check=True)
        said = subprocess.run([program(), "check", made], stdout=subprocess.PIPE, text=True, check=False).stdout
        try:
            print(said.strip() + ";", verify(data, "run", translation, ending(made, 100_000)))
        except Refused as refused:
            print(said.strip() + ";", refused)


if __name__ == "__main__":
    sys.setrecursionlimit(20000)
    main(*sys.argv[1:])
