#!/usr/bin/env python3
"""Writes docs/READING.md: the definitions that the clauses `headline` of `whole` and of `tool` reach, in reading order.

A definition is reached if a reached definition or the clause names it. The kit's library is not listed. `tests/cli.sh`
checks that the file is up to date.
"""
import os
import re
import sys

TOP = os.path.dirname(os.path.dirname(os.path.abspath(__file__)))
WORD = r"[A-Za-z_][\w'-]*"
NAME = rf"(?:{WORD}|◌\S+)"  # a definition's name: a word, or an operator with ◌ for each operand
MARKS = r"(?:abbrev |unfoldable |pub |infix[lr]? \d+ )*"
# Names that only say which object it is: what the object does is stated beside them.
WHICH = {("Rattle.ft_compile.specs.Emitted", "compiled_object")}
# The functions whose clause `headline` is meant.
HEADLINES = ("crates/ft_tool/src/at_system.rt", "whole"), ("crates/ft_tool/src/top.rt", "tool")


def read(path):
    with open(os.path.join(TOP, path), encoding="utf-8") as file:
        return file.read()


def crates():
    lines = read("crates.txt").split("\n")
    return [line.split(":")[0] for line in lines if re.match(r"ft_\w+:", line)]


def imports(text):
    """The names that `use` lines bring in, each with its module and its name there, and the modules by their aliases."""
    names, modules = {}, {}
    for path, rest in re.findall(r"^\s*(?:ghost |pub )?use ([\w.◌+-]+?)(?:\.\{([^}]*)\})?(?: as [\w-]+)?;?$", text, re.M):
        if rest:
            for item in rest.split(","):
                there, _, here = item.strip().partition(" as ")
                names[here or there] = (path, there)
    for path, here in re.findall(r"^\s*(?:ghost |pub )?use ([\w.]+) as ([\w-]+);?$", text, re.M):
        modules[here] = path
    return names, modules


class Module:
    """A file of definitions, cut into its parts: a comment and what follows it up to the next part."""

    def __init__(self, crate, path, name):
        self.crate, self.path, self.name = crate, path, name
        text = read(path)
        self.names, self.modules = imports(text)
        self.parts, self.place = [], {}
        body = [line for line in text.split("\n")]
        start = next((i for i, line in enumerate(body) if line and not re.match(r"--|(?:pub )?use |\s|$", line)), len(body))
        while start > 0 and body[start - 1].startswith("--"):
            start -= 1
        part = []
        for line in body[start:] + [""]:
            begins = re.match(rf"(?:--|mutual|(?:abbrev |unfoldable |pub |mod )+|{NAME} :|module )", line) and not line.startswith(" ")
            if begins and part and not all(x.startswith("--") for x in part) and self.is_new(line, part):
                self.add(part)
                part = []
            part.append(line)
        self.add(part)

    @staticmethod
    def is_new(line, part):
        return line.startswith("--") or re.match(rf"{MARKS}(?:mutual|module |(?:record |data )?{NAME} :|(?:record|data) )", line)

    def add(self, part):
        while part and not part[-1].strip():
            part.pop()
        code = [line for line in part if not line.startswith("--")]
        if not code:
            return
        index = len(self.parts)
        if re.match(rf"{MARKS}(?:mutual|module )", code[0]):
            inside = [line.strip() for line in code[1:]]
            heads = [re.match(rf"{MARKS}(?:record |data )?({NAME}) :", line) for line in inside]
            shown = [re.match(rf"pub (?:data|record) ({NAME})", line) or re.match(rf"(?:abbrev |unfoldable )*pub ({NAME}) :", line) for line in inside]
            made = [head.group(1) for head in heads if head]
            for name in made:
                self.place.setdefault(name, index)
            names = [head.group(1) for head in shown if head] or made
            self.parts.append(("`, `".join(dict.fromkeys(names)), part))
            return
        head = re.match(rf"{MARKS}(?:(record|data) )?({NAME})", code[0])
        if not head or code[0].startswith("use "):
            return
        self.parts.append((head.group(2), part))
        self.place.setdefault(head.group(2), index)
        if head.group(1) == "data":
            for line in code[1:]:
                made = re.match(rf"\s+({WORD}) :", line)
                if made:
                    self.place.setdefault(made.group(1), index)


def load():
    modules = {}
    for crate in crates():
        folder = os.path.join("crates", crate, "specs")
        if not os.path.isdir(os.path.join(TOP, folder)):
            continue
        order = re.findall(r"mod (\w+)", read(os.path.join(folder, "Lib.antt")))
        for name in order:
            path = os.path.join(folder, name + ".antt")
            modules[f"Rattle.{crate}.specs.{name}"] = Module(crate, path, name)
    return modules


def reached(modules, left_out):
    """The definitions and the types of the code that the headline reaches, not by way of the names that are left out."""
    found, rust, waiting = {}, {}, []

    def meet(module, name):
        if (module, name) in left_out:
            return
        if module in modules:
            here = modules[module]
            if name in here.place:
                index = here.place[name]
                if index not in found.setdefault(module, set()):
                    found[module].add(index)
                    waiting.append((module, index))
            elif name in here.names:
                meet(*here.names[name])
            else:
                sys.exit(f"{here.path} has no definition {name} that this script finds")
            return
        declared = re.match(r"Rattle\.(ft_\w+)\.specs\.declared\.(\w+)\.(\w+)", module)
        if declared:
            crate, file, kind = declared.groups()
            rust.setdefault((crate, f"crates/{crate}/src/{file}.rt"), set()).add(kind)

    def scan(text, names, aliases, own):
        for alias, word in re.findall(rf"\b({WORD})\.({WORD})", text):
            if alias in aliases:
                meet(aliases[alias], word)
        words = re.findall(WORD, text) + [f"◌{sign}◌" for sign in text.split()]
        words += [name for name in list(names) + list(own.place if own else []) if name.startswith("◌") and name.strip("◌") in text]
        for word in words:
            if own and word in own.place:
                meet(own_name, word)
            elif word in names:
                meet(*names[word])

    own_name = None
    for path, function in HEADLINES:
        text = read(path)
        clause = re.search(rf"pub fn {function}\b.*?ensures headline \{{(.*?)\}}\n", text, re.S).group(1)
        names, aliases = imports(text)
        scan(clause, names, aliases, None)
    while waiting:
        module, index = waiting.pop()
        here = modules[module]
        own_name = module
        text = "\n".join(line for line in here.parts[index][1] if not line.strip().startswith("--"))
        scan(text, here.names, here.modules, here)
    return found, rust


def without(all_of, some):
    """What is in the first of two maps from keys to sets, and not in the second."""
    rest = {key: values - some.get(key, set()) for key, values in all_of.items()}
    return {key: values for key, values in rest.items() if values}


def rows_of(modules, found):
    """A row for each file with its crate, and how many definitions and lines there are."""
    rows, total, count = [], 0, 0
    for module, here in modules.items():
        if module not in found:
            continue
        parts = [here.parts[i] for i in sorted(found[module])]
        lines = sum(len(part) for _, part in parts)
        total, count = total + lines, count + sum(1 + name.count("`, `") for name, _ in parts)
        rows.append((here.crate, f"| `{here.path[7:]}` | {lines} | {', '.join('`' + name + '`' for name, _ in parts)} |"))
    return rows, count, total


def print_crates(rows, rust, sign):
    """Prints a heading and a table for each crate."""
    for crate in crates():
        mine = [row for c, row in rows if c == crate]
        types = sorted((path, kinds) for (c, path), kinds in rust.items() if c == crate)
        if not mine and not types:
            continue
        print(f"{sign} `{crate}`\n")
        if types:
            listed = "; ".join(f"{', '.join('`' + k + '`' for k in sorted(kinds))} in `{path[7:]}`" for path, kinds in types)
            print(f"Types of the code: {listed}.\n")
        if mine:
            print("| file | lines | definitions |\n|---|---|---|")
            print("\n".join(mine) + "\n")


def main():
    modules = load()
    all_found, all_rust = reached(modules, set())
    found, rust = reached(modules, WHICH)
    rows, count, total = rows_of(modules, found)
    which, more, lines = rows_of(modules, without(all_found, found))
    print("# What the headline reaches\n")
    print("The clause `headline` of `whole` (`crates/ft_tool/src/at_system.rt`) states what the program does unless its status is 3, 4 or")
    print("5; that of `tool` (`top.rt`), which it calls, states it of any files, script and output. These are the definitions that the two")
    print("reach, in reading order: lowest crate first, and each file in the order of its crate's `specs/Lib.antt`. To believe these")
    print("clauses is to believe that they say what they should, that the traits `Shelf`, `Source` and `Sink` of `ft_edge` say what a call")
    print("does to files, script and output, and, for `whole`, that its types' histories are what the")
    print("[outside](PROMISES.md#the-outside-ft_edge) says. The other clauses of both, and the laws that `PROMISES.md` lists with them, reach")
    print("about a sixth more. Line counts include comments. The definitions of the kit's library")
    print("(numbers, including big-endian ones, lists, options, orders, finite maps, bytes of text, known bytes) must be believed as well")
    print("and are not listed. `docs/reading.py` makes this list.\n")
    print(f"In all, there are {count} definitions in {total} lines. {more} more, [at the end](#which-object-a-source-becomes), need not be")
    print("believed.\n")
    print_crates(rows, rust, "##")
    print("## Which object a source becomes\n")
    print("These definitions only say which object `compile` writes and `exec` runs (`compiled_object`). What the object does is stated")
    print(f"beside it (`StandsFor`), so nobody need believe them: {more} definitions in {lines} lines.\n")
    print_crates(which, without(all_rust, rust), "###")


main()
