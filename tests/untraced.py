#!/usr/bin/env python3
"""Removes a clause, a wrong body, a test, a heading and more from a copy of the repository, one at a time, and prints
each removal that docs/trace.py does not notice."""
import os
import re
import shutil
import subprocess
import sys
import tempfile

TOP = os.path.dirname(os.path.dirname(os.path.abspath(__file__)))


def change(old, new):
    """A change that replaces a text, which must occur."""
    def changed(text):
        assert old in text, old
        return text.replace(old, new, 1)
    return changed


# How a clause of `check` begins.
CHECK = "ensures program"
# What is removed: its file, the change, or None to remove the file, and a part of the expected message.
CASES = [
    ("a clause", "crates/ft_checker/src/judge.rt", change(CHECK, "ensures it"), "has no clause check.program"),
    ("a clause without a requirement", "crates/ft_checker/src/judge.rt",
     change(CHECK, "ensures more { ⊤ }\n    " + CHECK), "no requirement names the clause check.more"),
    ("a public function", "crates/ft_isa/src/op.rt", change("pub fn apply", "fn apply_op"), "has no clause apply"),
    ("a law", "crates/ft_tool/src/laws.rt", change("pub fn words_have_one_answer", "pub fn words_have_an_answer"),
     "has no clause words_have_one_answer"),
    ("a field of a type", "crates/ft_isa/src/reg.rt", change("ghost in_range", "ghost within"),
     "has no clause Reg.in_range"),
    ("a definition", "crates/ft_tool/specs/Answers.antt", lambda text: re.sub(r"\bConcludes\b", "Finishing", text),
     "no file of specs/ defines Concludes"),
    ("a wrong body of the gate", "crates/ft_tool/must-fail/tool_always_answers_1.edit", None,
     "no wrong body ft_tool/tool_always_answers_1"),
    ("another wrong body", "tests/wrong-bodies/ft_isa/sub_turned_round.edit", None,
     "no wrong body ft_isa/sub_turned_round"),
    ("a test", "tests/cli/recovery.sh", None, "there is no test tests/cli/recovery.sh"),
    ("a heading", "docs/MACHINE.md", change("## Strikes", "## Hits"), "has no heading strikes"),
    ("a requirement", "docs/trace.toml",
     lambda text: re.sub(r'\[\[group\.requirement\]\]\nid = "CHK-02".*?(?=\n\[\[)', "", text, flags=re.S),
     "CHK-03: the identifier should be CHK-02"),
    ("all evidence of a requirement", "docs/trace.toml",
     lambda text: re.sub(r'(id = "QUE-04"\nsays = .*\n)clauses = .*\nedits = .*\n', r"\1", text),
     "QUE-04: it has neither a clause nor a test"),
    ("a field's name", "docs/trace.toml", change("\nedits = ", "\nedit = "), "there is no field edit"),
    ("a row of the promises", "docs/PROMISES.md", lambda text: re.sub(r"\| CHK-01 \|.*\n", "", text),
     "docs/PROMISES.md is stale"),
    ("a row of the trace", "docs/TRACE.md", lambda text: re.sub(r"\| CHK-01 \|.*\n", "", text),
     "docs/TRACE.md is stale"),
]
# What is added without a requirement.
MORE = [
    ("a wrong body without a requirement", "tests/wrong-bodies/ft_isa/more.edit",
     "no requirement names the wrong body ft_isa/more"),
    ("a test without a requirement", "tests/cli/more.sh", "no requirement names the test tests/cli/more.sh"),
]


def said(top):
    checked = subprocess.run([sys.executable, "docs/trace.py", "--check"], cwd=top, capture_output=True, text=True)
    return checked.stdout + checked.stderr, checked.returncode


def main():
    with tempfile.TemporaryDirectory() as top:
        for name in ("crates", "docs", "tests", "crates.txt", "README.md"):
            source, copy = os.path.join(TOP, name), os.path.join(top, name)
            if os.path.isdir(source):
                shutil.copytree(source, copy, ignore=shutil.ignore_patterns("out", "proofs", "__pycache__", "pictures"))
            else:
                shutil.copy(source, copy)
        if said(top) != ("", 0):
            print("the copy as it is: " + said(top)[0])
        for name, path, changed, wanted in CASES:
            place = os.path.join(top, path)
            with open(place, encoding="utf-8") as file:
                text = file.read()
            if changed is None:
                os.remove(place)
            else:
                with open(place, "w", encoding="utf-8") as file:
                    file.write(changed(text))
            told, status = said(top)
            if wanted not in told or status != 1:
                print(f"{name} goes unnoticed: {told}")
            with open(place, "w", encoding="utf-8") as file:
                file.write(text)
        for name, path, wanted in MORE:
            place = os.path.join(top, path)
            with open(place, "w", encoding="utf-8"):
                pass
            told, status = said(top)
            if wanted not in told or status != 1:
                print(f"{name} goes unnoticed: {told}")
            os.remove(place)


if __name__ == "__main__":
    main()
