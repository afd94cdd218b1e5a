#!/usr/bin/env python3
"""Traces requirements to clauses, wrong bodies, tests and documents, and back, using docs/trace.toml.

    docs/trace.py               writes docs/TRACE.md and the tables of docs/PROMISES.md
    docs/trace.py --check       writes what is missing or stale, and ends with status 1 if anything is
    docs/trace.py --csv FILE    writes one line for each requirement
    docs/trace.py --page FILE   writes a searchable page with all requirements
"""
import collections
import csv
import fnmatch
import glob
import html
import io
import os
import re
import sys
import textwrap
import tomllib

sys.dont_write_bytecode = True
from contracts import TOP, cited, clauses, definitions, read

FIELDS = {"id", "says", "clauses", "definitions", "edits", "tests", "documents", "withdrawn"}
Requirement = collections.namedtuple("Requirement", "id says named clauses definitions edits tests documents withdrawn")
Group = collections.namedtuple("Group", "id title documents tests requirements")


def files(pattern):
    """The files of the repository that a pattern names."""
    found = glob.glob(pattern, root_dir=TOP, recursive=True)
    return sorted(path for path in found if os.path.isfile(os.path.join(TOP, path)) and "__pycache__" not in path)


def edits():
    """The wrong bodies, as CRATE/NAME, each with its file."""
    found = files("crates/*/must-fail/*.edit") + files("tests/wrong-bodies/*/*.edit")
    crates = (re.search(r"ft_\w+", path).group() for path in found)
    return {f"{crate}/{os.path.basename(path)[:-5]}": path for crate, path in zip(crates, found)}


def tests():
    """The test files: those of tests/ that are not wrong bodies, and those of crates that contain a test."""
    scripts = [path for path in files("tests/**/*") if not path.startswith("tests/wrong-bodies/")]
    return scripts + [path for path in files("crates/*/src/**/*.rt") if re.search(r"^\s*#\[test\]", read(path), re.M)]


def defining(word):
    """The files of specs/ that define a word, or a record with its field, as RECORD.FIELD."""
    parts = [set(definitions().get(part, [])) for part in word.split(".")]
    return sorted(set.intersection(*parts))


def headings(path):
    """The headings of a document as links name them."""
    titles = re.findall(r"^#+ (.*)$", re.sub(r"^```.*?^```", "", read(path), flags=re.M | re.S), re.M)
    return {re.sub(r"[^\w\- ]", "", title.lower()).replace(" ", "-") for title in titles}


def names_in(entry):
    """The file of an entry `FILE: NAME.PART, .PART, ..`, and its names, written out."""
    path, _, rest = entry.partition(": ")
    names, last = [], ""
    for name in rest.split(", "):
        name = last + name if name.startswith(".") else name
        last = name.split(".")[0]
        names.append(name)
    return path, names


def matches(clause, name):
    """Whether a name stands for a clause: its own, its function's, or a pattern."""
    if "*" in name:
        return fnmatch.fnmatchcase(clause, name)
    return clause == name or clause.split(".")[0] == name


class Trace:
    """All groups, and the errors in them."""

    def __init__(self):
        with open(os.path.join(TOP, "docs/trace.toml"), "rb") as file:
            written = tomllib.load(file)
        self.problems, self.edits, self.tests = [], edits(), tests()
        self.by_file = collections.defaultdict(list)
        for clause in clauses():
            self.by_file[clause.path].append(clause)
        self.groups = [self.group(group) for group in written["group"]]
        self.requirements = [one for group in self.groups for one in group.requirements]
        self.complete()

    def group(self, written):
        known = [self.requirement(number, written, one) for number, one in enumerate(written["requirement"], 1)]
        return Group(written["id"], written["title"], self.documents(written), self.named_tests(written), known)

    def requirement(self, number, group, one):
        name = one.get("id", "?")
        if name != f"{group['id']}-{number:02d}":
            self.problems.append(f"{name}: the identifier should be {group['id']}-{number:02d}")
        for field in set(one) - FIELDS:
            self.problems.append(f"{name}: there is no field {field}")
        if not one.get("says") or ". " in one["says"]:
            self.problems.append(f"{name}: it should be one sentence")
        named = [names_in(entry) for entry in one.get("clauses", [])]
        found = [clause for path, names in named for each in names for clause in self.named_clauses(name, path, each)]
        for word in one.get("definitions", []):
            if not defining(word):
                self.problems.append(f"{name}: no file of specs/ defines {word}")
        for word in one.get("edits", []):
            if word not in self.edits:
                self.problems.append(f"{name}: there is no wrong body {word}")
        own = self.named_tests(one)
        whole = Requirement(name, one.get("says", ""), named, list(dict.fromkeys(found)), one.get("definitions", []),
                            one.get("edits", []), own, self.documents(one), one.get("withdrawn"))
        if not whole.clauses and not own and not whole.withdrawn:
            self.problems.append(f"{name}: it has neither a clause nor a test")
        return whole

    def named_clauses(self, requirement, path, name):
        found = [clause for clause in self.by_file[f"crates/{path}"] if matches(clause.name, name)]
        if not found:
            self.problems.append(f"{requirement}: {path} has no clause {name}")
        return found

    def named_tests(self, one):
        found = []
        for pattern in one.get("tests", []):
            here = [path for path in files(pattern) if path in self.tests]
            if not here:
                self.problems.append(f"{one['id']}: there is no test {pattern}")
            found += here
        return list(dict.fromkeys(found))

    def documents(self, one):
        for place in one.get("documents", []):
            path, _, heading = place.partition("#")
            if not files(path):
                self.problems.append(f"{one['id']}: there is no document {path}")
            elif heading and heading not in headings(path):
                self.problems.append(f"{one['id']}: {path} has no heading {heading}")
        return one.get("documents", [])

    def complete(self):
        """Whether each public clause, each wrong body and each test is named by a requirement."""
        named = {clause for one in self.requirements for clause in one.clauses}
        for clause in clauses():
            if clause.public and clause not in named:
                self.problems.append(f"no requirement names the clause {clause.name} of {clause.path}")
        of_groups = {path for group in self.groups for path in group.tests}
        for kind, known, found in (
            ("wrong body", self.edits, {word for one in self.requirements for word in one.edits}),
            ("test", self.tests, {path for one in self.requirements for path in one.tests} | of_groups),
        ):
            self.problems += [f"no requirement names the {kind} {name}" for name in known if name not in found]
        for name, count in collections.Counter(group.id for group in self.groups).items():
            if count > 1:
                self.problems.append(f"{name}: two groups have this identifier")

    def between(self, first, last):
        """The requirements from one identifier to another; a group's identifier stands for its first or last."""
        of = {group.id: group.requirements for group in self.groups}
        first, last = (of[name][at].id if name in of else name for name, at in ((first, 0), (last, -1)))
        every = [one.id for one in self.requirements]
        if first not in every or last not in every:
            sys.exit(f"docs/PROMISES.md names requirements {first} to {last}, which docs/trace.toml lacks")
        return self.requirements[every.index(first):every.index(last) + 1]


def code(words):
    return ", ".join(f"`{word}`" for word in words)


def clause_words(one):
    """The clauses of a requirement, abbreviated: a clause of the same function as the one before it is only `.PART`."""
    words, last = [], None
    for _, names in one.named:
        for name in names:
            home, _, part = name.partition(".")
            words.append(f".{part}" if part and home == last else name)
            last = home
    return words


def clause_cell(one):
    cell = code(clause_words(one)) or "tested only"
    return f"{cell} ({code(one.definitions)})" if one.definitions else cell


def homes(requirements):
    """The lines `In FOLDER: FILE (NAME, ..)` for the clauses of requirements."""
    found = {}
    for one in requirements:
        for path, names in one.named:
            crate, _, rest = path.partition("/src/")
            for name in names:
                home = name.split(".")[0].split("::")[0]
                found.setdefault(crate, {}).setdefault(rest, {})[home] = None
    sentences = []
    for crate, paths in found.items():
        listed = [f"`{path}` ({code(name for name in names if '*' not in name)})" for path, names in paths.items()]
        sentences.append(f"In `crates/{crate}/src`: {', '.join(listed)}.")
    return [line for sentence in sentences for line in textwrap.wrap(sentence, 120, break_long_words=False)]


def promise_table(requirements):
    lines = homes(requirements)
    lines += ["", "| number | promise | clause |", "|---|---|---|"]
    for one in requirements:
        says = f"(withdrawn: {one.withdrawn})" if one.withdrawn else one.says
        lines.append(f"| {one.id} | {says} | {clause_cell(one)} |")
    return lines


def tested_table(requirements):
    lines = ["| number | what is tested | tests |", "|---|---|---|"]
    return lines + [f"| {one.id} | {one.says} | {short(one.tests)} |" for one in requirements if not one.clauses]


def edit_table(trace):
    crates = collections.defaultdict(list)
    for name in trace.edits:
        crate, _, word = name.partition("/")
        crates[crate].append(word)
    order = [path.split("/")[1] for path in dict.fromkeys(clause.path for clause in clauses())]
    numbers = {word: one.id for one in trace.requirements for word in one.edits}
    lines = ["| crate | edits, each with the promise that it breaks |", "|---|---|"]
    for crate in dict.fromkeys(order):
        if crate in crates:
            words = (f"`{word}` ({numbers.get(f'{crate}/{word}', '')})" for word in sorted(crates[crate]))
            lines.append(f"| `{crate}` | {', '.join(words)} |")
    return lines


MARK = re.compile(r"<!-- trace: (.*?) -->\n.*?<!-- end of trace -->", re.S)


def promises(trace):
    """docs/PROMISES.md with its tables regenerated."""
    def made(found):
        what = found.group(1)
        if what == "wrong bodies":
            lines = edit_table(trace)
        else:
            kind, _, span = what.rpartition("; ")
            ends = span.split(" to ")
            chosen = trace.between(ends[0], ends[-1])
            lines = tested_table(chosen) if kind == "tested" else promise_table(chosen)
        return "\n".join([f"<!-- trace: {what} -->", *lines, "<!-- end of trace -->"])
    return MARK.sub(made, read("docs/PROMISES.md"))


def short(paths):
    """Paths, abbreviated: if a folder has many, they are only counted."""
    folders = collections.defaultdict(list)
    for path in paths:
        folders[os.path.dirname(path)].append(path)
    cells = []
    for folder, here in folders.items():
        cells += [f"`{folder}/` ({len(here)} files)"] if len(here) > 4 else [f"`{path}`" for path in here]
    return ", ".join(cells)


def links(documents):
    shown = ((place.removeprefix("docs/"), place) for place in documents)
    return ", ".join(f"[{name}]({name if place.startswith('docs/') else '../' + place})" for name, place in shown)


def document(trace):
    """docs/TRACE.md."""
    count = len(trace.requirements)
    public = sum(clause.public for clause in clauses())
    lines = [
        "# Requirements and their evidence", "",
        "Each requirement of the program has one sentence and a number that never changes. Its row lists the clauses that",
        "carry it, the wrong bodies that the prover refuses for it, its tests, and the documents that explain it.",
        "A requirement without a clause is only tested. Documents and tests under a heading are about all requirements",
        "there.", "",
        f"In all, there are {count} requirements, {public} clauses of public calls, laws and types, {len(trace.edits)} wrong",
        f"bodies and {len(trace.tests)} test files. `docs/trace.py` makes this list from `docs/trace.toml`. The gate checks that",
        "every name in it exists, and that each of these clauses, wrong bodies and tests has a requirement.",
        "`docs/trace.py --csv FILE` writes the list as a table for other programs, `--page FILE` as a searchable page.", "",
        "The last chapters lead back: [from clauses](#from-clauses), [from wrong bodies](#from-wrong-bodies) and",
        "[from tests](#from-tests).",
    ]
    for group in trace.groups:
        lines += ["", f"## {group.title} ({group.id})", "", f"Documents: {links(group.documents)}."]
        if group.tests:
            lines += ["", f"Tests: {short(group.tests)}."]
        lines += ["", "| number | requirement | clauses, in `crates/` | wrong bodies | tests |"]
        lines.append("|---|---|---|---|---|")
        for one in group.requirements:
            carried = "; ".join(f"`{path}`: {code(names)}" for path, names in one.named) or "none: tested only"
            carried += cites(one)
            says = f"(withdrawn: {one.withdrawn})" if one.withdrawn else one.says
            says += f" ({links(one.documents)})" if one.documents else ""
            lines.append(f"| {one.id} | {says} | {carried} | {code(one.edits)} | {short(one.tests)} |")
    lines += ["", "## From clauses", ""]
    lines += ["| file, in `crates/` | clauses of public calls, laws and types, with their requirements |", "|---|---|"]
    numbers = collections.defaultdict(list)
    for one in trace.requirements:
        for clause in one.clauses:
            numbers[clause].append(one.id)
    for path, found in trace.by_file.items():
        calls = collections.defaultdict(list)
        for clause in found:
            if clause.public:
                name, _, part = clause.name.partition(".")
                calls[name].append((part, numbers[clause]))
        if calls:
            lines.append(f"| `{path[7:]}` | {'; '.join(back(name, parts) for name, parts in calls.items())} |")
    lines += ["", "## From wrong bodies", "", "| wrong body | file | requirements |", "|---|---|---|"]
    for name, path in trace.edits.items():
        found = ", ".join(one.id for one in trace.requirements if name in one.edits)
        lines.append(f"| `{name}` | `{path}` | {found} |")
    lines += ["", "## From tests", "", "| test | requirements; a group's letters stand for all of it |", "|---|---|"]
    for path in trace.tests:
        found = [group.id for group in trace.groups if path in group.tests]
        found += [one.id for one in trace.requirements if path in one.tests]
        lines.append(f"| `{path}` | {', '.join(found)} |")
    return "\n".join(lines) + "\n"


def back(name, parts):
    """A function with its clauses and the requirements of each, abbreviated."""
    same = {tuple(found) for _, found in parts}
    if len(same) == 1:
        return f"`{name}` {', '.join(same.pop())}"
    return ", ".join(f"`{name if not at else ''}.{part}` {', '.join(found)}" for at, (part, found) in enumerate(parts))


def looked_up(one):
    """The definitions that the clauses of a requirement cite, and those that it names, each with its file."""
    found = dict.fromkeys(pair for clause in one.clauses for pair in cited(clause))
    known = {word for _, word in found}
    found.update({(path, word): None for word in one.definitions if word not in known for path in defining(word)})
    return list(found)


def cites(one):
    """The definitions that a requirement names, with their files in crates/, as the table has them."""
    found, places = looked_up(one), []
    for word in one.definitions:
        files_of = [path for path, name in found if name == word]
        places.append(f"`{word}` in {' and '.join(f'`{path[7:]}`' for path in files_of)}")
    return f" (cites {', '.join(places)})" if places else ""


COLUMNS = ["number", "requirement", "clauses", "definitions", "wrong bodies", "tests", "documents"]


def rows(trace):
    for group in trace.groups:
        for one in group.requirements:
            carried = [f"crates/{clause.path[7:]}:{clause.line} {clause.name}" for clause in one.clauses]
            defined = [f"{path} {word}" for path, word in looked_up(one)]
            refused = [trace.edits.get(word, word) for word in one.edits]
            tried, told = one.tests + group.tests, one.documents + group.documents
            yield [one.id, one.says, carried, defined, refused, tried, told]


def table(trace):
    """The trace as CSV."""
    out = io.StringIO()
    writer = csv.writer(out, lineterminator="\n")
    writer.writerow(COLUMNS)
    for row in rows(trace):
        writer.writerow(["\n".join(cell) if isinstance(cell, list) else cell for cell in row])
    return out.getvalue()


PAGE = """<!DOCTYPE html>
<html lang="en"><meta charset="utf-8"><title>Requirements and their evidence</title>
<style>body{font:15px system-ui,sans-serif;margin:1em}table{border-collapse:collapse}td,th{border:1px solid #999;
padding:.3em .5em;vertical-align:top;text-align:left;font-size:13px}code{overflow-wrap:anywhere}
input{font:inherit;width:30em;max-width:100%}</style>
<h1>Requirements and their evidence</h1>
<p><input id="filter" placeholder="search: a number, a word, a clause, a file"></p>
<table><thead><tr>@HEAD@</tr></thead><tbody>@BODY@</tbody></table>
<script>const rows=[...document.querySelectorAll("tbody tr")];document.getElementById("filter").oninput=e=>{
const words=e.target.value.toLowerCase().split(" ");for(const row of rows){const text=row.textContent.toLowerCase();
row.hidden=!words.every(word=>text.includes(word))}}</script></html>
"""


def page(trace):
    """The trace as a page that needs nothing else."""
    def cell(value):
        if isinstance(value, str):
            return html.escape(value)
        # Long names may be cut after their signs.
        return "<br>".join("<code>" + re.sub("([/_.:])", r"\1<wbr>", html.escape(one)) + "</code>" for one in value)

    def line(row):
        return f'<tr id="{row[0]}">{"".join(f"<td>{cell(value)}</td>" for value in row)}</tr>'
    head = "".join(f"<th>{name}</th>" for name in COLUMNS)
    body = "\n".join(line(row) for row in rows(trace))
    return PAGE.replace("@HEAD@", head).replace("@BODY@", body)


def write(path, text):
    with open(path, "w", encoding="utf-8") as file:
        file.write(text)


def main(words):
    trace = Trace()
    if words == ["--check"]:
        stale = [path for path, text in (("docs/TRACE.md", document(trace)), ("docs/PROMISES.md", promises(trace)))
                 if not files(path) or read(path) != text]
        problems = trace.problems + [f"{path} is stale: run python3 docs/trace.py" for path in stale]
        print("".join(f"{problem}\n" for problem in problems), end="")
        sys.exit(bool(problems))
    elif len(words) == 2 and words[0] in ("--csv", "--page"):
        write(words[1], table(trace) if words[0] == "--csv" else page(trace))
    elif not words:
        write(os.path.join(TOP, "docs/TRACE.md"), document(trace))
        write(os.path.join(TOP, "docs/PROMISES.md"), promises(trace))
        print("".join(f"{problem}\n" for problem in trace.problems), end="", file=sys.stderr)
    else:
        sys.exit(__doc__)


if __name__ == "__main__":
    main(sys.argv[1:])
