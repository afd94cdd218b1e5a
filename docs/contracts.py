"""What the crates promise: the clauses of their public calls, laws and types, and the definitions of their specs/.

A public call is a function that its crate exports, a public function of a type that it exports, or a function of a
trait that it exports. A law is a public function without parameters and with an empty body.
"""
import collections
import functools
import glob
import os
import re

TOP = os.path.dirname(os.path.dirname(os.path.abspath(__file__)))
Clause = collections.namedtuple("Clause", "path name line public")


def read(path):
    with open(os.path.join(TOP, path), encoding="utf-8") as file:
        return file.read()


@functools.cache
def crates():
    """The crates with their libraries, lowest first."""
    lines = re.findall(r"^(\w+)(?: \w+)?:(.*)$", read("crates.txt"), re.M)
    return {name: libraries.split() for name, libraries in lines}


@functools.cache
def needed(*roots):
    """The crates that the program, or another crate, depends on, lowest first."""
    found, waiting = set(), list(roots or ["talft"])
    while waiting:
        name = waiting.pop()
        if name in crates() and name not in found:
            found.add(name)
            waiting += crates()[name]
    return [name for name in crates() if name in found]


def promising():
    """The crates that the program and the C library depend on, and the libraries beside them. The others hold tests."""
    return needed("talft", "ft_c", "ft_flow", "ft_flight", "ft_riscv", "ft_legs", "ft_classes")


def exports(crate):
    """The names that a crate exports to others."""
    root = f"crates/{crate}/src/lib.rt"
    if not os.path.exists(os.path.join(TOP, root)):
        return set()
    names = set()
    for path in re.findall(r"^pub use ([^;]+);", read(root), re.M):
        inside = re.search(r"\{(.*)\}", path, re.S)
        items = inside.group(1).split(",") if inside else [path]
        names |= {item.split("::")[-1].split(" as ")[-1].strip() for item in items}
    return names - {""}


HOME = re.compile(r"^(?:pub )?(impl|trait|struct|enum)\b(.*)")
CALL = re.compile(r'^( *)(pub(?:\([^)]*\))? )?(?:const )?(?:extern "C" )?fn (\w+)')
ENSURES = re.compile(r"^\s+ensures\b\s*(\w+)?\s*(?:\{|$)")
FIELD = re.compile(r"^    (?:pub )?ghost (\w+): \{")


def bare(name):
    """The name of a type without its parameters."""
    found = re.match(r"&?(?:mut )?(\w+)", re.sub(r"^<[^>]*(?:<[^>]*>[^>]*)*>\s*", "", name.strip()))
    return found.group(1) if found else ""


def clauses_of(crate):
    """The clauses of a crate, and whether users of the crate see them."""
    shown, found = exports(crate), []
    for path in sorted(glob.glob(f"crates/{crate}/src/**/*.rt", recursive=True, root_dir=TOP)):
        kind = home = call = None
        public = False
        for number, line in enumerate(read(path).split("\n"), 1):
            if line.startswith("#[cfg(test)]"):
                break
            begins = HOME.match(line)
            if begins:
                kind, rest = begins.groups()
                whole = re.sub(r"\{.*", "", rest)
                kind = "impl of a trait" if kind == "impl" and " for " in whole else kind
                home, call = bare(whole.split(" for ")[-1]), None
            elif line.startswith("}"):
                kind = home = call = None
            header = CALL.match(line)
            if header:
                indent, visible, name = header.groups()
                call = f"{home}::{name}" if indent and home else name
                is_open = visible == "pub " or kind in ("trait", "impl of a trait")
                public = is_open and (home if indent else name) in shown
            ensures = ENSURES.match(line)
            if ensures and call:
                part = ensures.group(1)
                found.append(Clause(path, f"{call}.{part}" if part else call, number, public))
            field = FIELD.match(line)
            if field and kind in ("struct", "enum"):
                found.append(Clause(path, f"{home}.{field.group(1)}", number, home in shown))
    return found


@functools.cache
def clauses():
    """Every clause of every function and type of the crates that the program and the C library depend on."""
    return [clause for crate in promising() for clause in clauses_of(crate)]


IMPORT = re.compile(r"ghost use Rattle\.(ft_\w+)\.specs\.(\w+)\.\{([^}]*)\}")


@functools.cache
def imports(path):
    """The definitions of specs/ that a file names, each with the file that defines it and its name there."""
    found = {}
    for crate, module, items in IMPORT.findall(read(path)):
        for item in items.split(","):
            there, _, here = item.strip().partition(" as ")
            found[here or there] = (f"crates/{crate}/specs/{module}.antt", there)
    return found


def cited(clause):
    """The definitions that a clause cites, each with its file."""
    lines = read(clause.path).split("\n")[clause.line - 1:]
    over = re.compile(r"\s*(?:ensures|requires|fn|pub|//|\{|\})")
    end = next((at for at, line in enumerate(lines[1:], 1) if over.match(line)), 1)
    words = re.findall(r"[A-Za-z_][\w']*", " ".join(lines[:end]))
    return list(dict.fromkeys(imports(clause.path)[word] for word in words if word in imports(clause.path)))


ITEM = re.compile(r"^\s*(?:(?:abbrev|unfoldable|inline|pub|record|data) )*([^\s(){}:=]+) (?::|[({])")


@functools.cache
def definitions():
    """Each name that a file of specs/ defines, including fields and cases, with the files that define it."""
    found = collections.defaultdict(list)
    for crate in promising():
        for path in sorted(glob.glob(f"crates/{crate}/specs/*.antt", root_dir=TOP)):
            for line in read(path).split("\n"):
                item = None if line.startswith("--") else ITEM.match(line)
                if item and path not in found[item.group(1)]:
                    found[item.group(1)].append(path)
    return found
