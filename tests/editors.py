#!/usr/bin/env python3
"""Tests the syntax files on sources: each byte has the class that the token rules give it.

    python3 tests/editors.py textmate|vim|bat FILE..

`textmate` applies the grammar as an editor does; `vim` and `bat` run those programs. The last line counts the bytes,
and those of a wrong class; the status is 1 if there are any.
"""
import json
import os
import re
import shutil
import subprocess
import sys
import tempfile

TOP = os.path.dirname(os.path.dirname(os.path.abspath(__file__)))
EDITORS = f"{TOP}/editors"
LETTERS = "abcdefghijklmnopqrstuvwxyzABCDEFGHIJKLMNOPQRSTUVWXYZ_"
DIGITS = "0123456789"
WORDS = {"cell": "declaration", "var": "declaration", "while": "loop", "if": "choice", "else": "choice"}
# What each class is called in the grammar, and by Vim.
CLASSES = {
    "blank": ("", ""),
    "comment": ("comment.line.number-sign.talft", "talftComment"),
    "fault": ("invalid.illegal.", "talftFault"),
    "declaration": ("storage.type.talft", "talftDeclaration"),
    "loop": ("keyword.control.loop.talft", "talftLoop"),
    "choice": ("keyword.control.conditional.talft", "talftChoice"),
    "name": ("variable.other.talft", "talftName"),
    "number": ("constant.numeric.integer.decimal.talft", "talftNumber"),
    "operator": ("keyword.operator.", "talftOperator"),
    "mark": ("punctuation.", "talftMark"),
}


def classes(text):
    """Returns the class of each byte, by docs/SOURCE_LANGUAGE.md, Tokens."""
    found = []
    while len(found) < len(text):
        at = len(found)
        first, end = text[at], at + 1
        if first in " \t\r\n":
            kind = "blank"
        elif first == "#":
            while end < len(text) and text[end] != "\n":
                end += 1
            kind = "comment"
        elif first in LETTERS:
            while end < len(text) and text[end] in LETTERS + DIGITS:
                end += 1
            kind = WORDS.get(text[at:end], "name" if end - at <= 32 else "fault")
        elif first in DIGITS:
            while end < len(text) and text[end] in DIGITS:
                end += 1
            kind = "number"
        else:
            end += text[at:at + 2] in ("==", "<<", ">>")
            kind = "operator" if first in "=+-*<&|^" or end - at == 2 else "mark" if first in ";()[]{}" else "fault"
        found += [kind] * (end - at)
    return found


def scopes_of(text, grammar):
    """The scope of each byte, as an editor finds it in a TextMate grammar."""
    with open(f"{EDITORS}/vscode/{grammar}.tmLanguage.json", encoding="utf-8") as file:
        patterns = [(re.compile(it["match"]), it["name"]) for it in json.load(file)["patterns"]]
    found = []
    for line in text.splitlines(True):
        at, scopes = 0, []
        while at < len(line):
            matches = [(it.search(line, at), name) for it, name in patterns]
            matches = [(it.start(), -order, it.end(), name) for order, (it, name) in enumerate(matches) if it]
            if not matches:
                break
            start, _, end, name = min(matches, key=lambda it: (it[0], -it[1]))
            scopes += [""] * (start - at) + [name] * (end - start)
            at = end
        found += scopes + [""] * (len(line) - at)
    return found


def by_textmate(text, folder):
    return [scope_class(it) for it in scopes_of(text, "talft")]


def scope_class(scope):
    return next((kind for kind, (name, _) in CLASSES.items() if name and scope.startswith(name)), "blank")


def groups_of(file_name, folder):
    """The name that Vim gives to the syntax of each byte of a file, and an empty name for each line end."""
    script, told = f"{folder}/script.vim", f"{folder}/told"
    with open(script, "w", encoding="utf-8") as file:
        file.write(
            "let names = []\n"
            "for l in range(1, line('$'))\n"
            "  for c in range(1, col([l, '$']) - 1)\n"
            "    call add(names, synIDattr(synID(l, c, 0), 'name'))\n"
            "  endfor\n"
            "  call add(names, '')\n"
            "endfor\n"
            f"call writefile(names, '{told}')\n"
            "qall!\n"
        )
    words = ["vim", "-es", "-u", "NONE", "-N", "-i", "NONE", "-c", f"set rtp^={EDITORS}/vim", "-c", "filetype on"]
    words += ["-c", "syntax on", "-c", f"edit {file_name}", "-c", f"source {script}"]
    subprocess.run(words, stdin=subprocess.DEVNULL, timeout=60, check=False)
    with open(told, encoding="utf-8") as file:
        return file.read().splitlines()


def by_vim(text, folder):
    names = groups_of(f"{folder}/text.src", folder)
    groups = {group: kind for kind, (_, group) in CLASSES.items()}
    return [groups[it] for it in names]


def by_bat(text, folder):
    program = shutil.which("bat") or shutil.which("batcat")
    os.makedirs(f"{folder}/from/syntaxes")
    os.makedirs(f"{folder}/from/themes")
    shutil.copy(f"{EDITORS}/talft.sublime-syntax", f"{folder}/from/syntaxes")
    colours = {kind: f"#{at:02x}{at:02x}{at:02x}" for at, kind in enumerate(CLASSES, 1)}
    rules = "".join(
        f"<dict><key>scope</key><string>{name.rstrip('.')}</string><key>settings</key><dict><key>foreground</key>"
        f"<string>{colours[kind]}</string></dict></dict>"
        for kind, (name, _) in CLASSES.items()
        if name
    )
    with open(f"{folder}/from/themes/classes.tmTheme", "w", encoding="utf-8") as file:
        file.write(
            '<?xml version="1.0" encoding="UTF-8"?><plist version="1.0"><dict><key>name</key><string>classes</string>'
            "<key>settings</key><array><dict><key>settings</key><dict><key>foreground</key>"
            f"<string>{colours['blank']}</string></dict></dict>{rules}</array></dict></plist>"
        )
    cache = f"{folder}/cache"
    how = {"check": True, "stdout": subprocess.PIPE, "timeout": 60}
    subprocess.run([program, "cache", "--build", "--source", f"{folder}/from", "--target", cache], **how)
    words = [program, "--no-config", "--theme", "classes", "--tabs", "0", "-p", "--color", "always", "--paging", "never", "-l", "talft"]
    environment = {**os.environ, "BAT_CACHE_PATH": cache, "COLORTERM": "truecolor"}
    said = subprocess.run([*words, f"{folder}/text.src"], env=environment, **how).stdout.decode()
    kinds, found, kind = {str(at): it for at, it in enumerate(CLASSES, 1)}, [], "blank"
    for part in re.findall(r"\x1b\[[0-9;]*m|[^\x1b]", said):
        colour = re.fullmatch(r"\x1b\[38;2;(\d+);\d+;\d+m", part)
        if colour:
            kind = kinds[colour[1]]
        elif part == "\x1b[0m":
            kind = "blank"
        elif len(part) == 1:
            found.append(kind)
    return found


def main(way, *files):
    tell = {"textmate": by_textmate, "vim": by_vim, "bat": by_bat}[way]
    count = wrong = 0
    for name in files:
        with open(name, encoding="ascii", newline="") as file:
            text = file.read()
        if not text.endswith("\n"):
            text += "\n"
        with tempfile.TemporaryDirectory() as folder:
            with open(f"{folder}/text.src", "w", encoding="ascii", newline="") as file:
                file.write(text)
            wanted, got = classes(text), tell(text, folder)
        count += len(text)
        if len(got) != len(wanted):
            print(f"{name}: {len(wanted)} bytes, and {len(got)} classes")
            wrong += len(wanted)
            continue
        for at, (one, other) in enumerate(zip(wanted, got)):
            # No editor colours blanks.
            if one != other and one != "blank":
                wrong += 1
                print(f"{name}: byte {at}, {text[at]!r}: {one}, and not {other}")
    print(f"{count} bytes, {wrong} wrong")
    return 1 if wrong or not count else 0


if __name__ == "__main__":
    sys.exit(main(*sys.argv[1:]))
