"""Runs a guide as a reader would: `guide.py GUIDE TOP` runs the blocks of a Markdown file, in one shell at TOP.

A chapter with the comment `<!-- needs PROGRAM .. -->` is left out if one of these is missing, and a line says so.
In a `console` block, a line that begins with `$ ` is a command, lines that begin with `> ` continue it, and the lines
below are what it must write on standard output. A block `text NAME` is written to the file NAME. Other blocks are only
for the reader. It prints a line for each command that writes something else, and a last one with the counts."""
import os
import re
import shutil
import subprocess
import sys

MARK = "\x1e"
NEEDS = re.compile(r"^<!-- needs (.+) -->$", re.MULTILINE)
FENCE = re.compile(r"^```(\w*)(?: (\S+))?\n(.*?)^```$", re.MULTILINE | re.DOTALL)


def chapters(text):
    """The chapters whose programs are installed."""
    for chapter in re.split(r"^(?=## )", text, flags=re.MULTILINE):
        needs = NEEDS.search(chapter)
        if missing := [name for name in needs[1].split() if not shutil.which(name)] if needs else []:
            print(f"left out: {len(list(calls(chapter)))} commands, as {missing[0]} is not installed")
        else:
            yield chapter


def calls(text):
    """The shell commands of each block in turn, with their expected output."""
    for kind, name, block in FENCE.findall(text):
        if kind == "text" and name:
            yield f"cat >{name} <<'END OF {name}'\n{block}END OF {name}", ""
        elif kind == "console":
            for part in re.split(r"^\$ ", block, flags=re.MULTILINE)[1:]:
                lines = part.splitlines(keepends=True)
                more = next((n for n, line in enumerate(lines[1:], 1) if not line.startswith("> ")), len(lines))
                yield lines[0] + "".join(line[2:] for line in lines[1:more]), "".join(lines[more:])


def main(guide, top):
    with open(guide, encoding="utf-8") as text:
        asked = list(calls("".join(chapters(text.read()))))
    script = "".join(f"{{ {words.rstrip()}\n}} </dev/null\nprintf '\\036'\n" for words, _ in asked)
    # A reader does not have the functions of the caller's shell.
    names = {name: value for name, value in os.environ.items() if not name.startswith("BASH_FUNC_")}
    run = subprocess.run(["bash", "-c", script], cwd=top, env=names, capture_output=True, text=True, check=False,
                         timeout=1800)
    written = run.stdout.split(MARK)[:-1]
    wrong = 0
    for (words, wanted), got in zip(asked, written):
        if got != wanted:
            wrong += 1
            print(f"{words.splitlines()[0]}: wanted {wanted!r}, got {got!r}")
    if len(written) < len(asked):
        print(f"{asked[len(written)][0].splitlines()[0]}: the shell ended: {run.stderr[-300:]}")
    print(f"{len(written) - wrong} of {len(asked)} commands write what the guide says")


if __name__ == "__main__":
    main(*sys.argv[1:])
