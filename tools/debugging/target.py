"""The debugged program: an object, an assembly text or a source, as an object with its listing, lines and names."""
import os
import re
import shlex
import subprocess
import tempfile

from common import Misused, Refused, are_one, emptied, in_this_process, naming, not_run, program, put, why
from debugging.listing import Listing, without_initial
from debugging.machine import cell_number
from debugging.source_lines import lines_of
from kinds import LOOKED_AT, kind_of_data, kind_of_path
from messages import named, quoted, reason

MAGIC = b"TALFT"
# What resembles neither an object nor a text.
NEITHER = "the output of a campaign", "a fault list", "the output of a run", "a link map"
NOT_BUILT = "the program is not proved yet, so each answer would take most of a minute: run `make` first"


def built_program():
    """The program itself, if the repository's script would run it: the script looks for changed sources each time."""
    script = program()
    sources = os.path.join(os.path.dirname(os.path.realpath(script)), "build", "sources.sh")
    if not os.path.isfile(sources):
        return script
    asked = 'top=$1; . "$2" && is_built && printf %s "$program"'
    words = ["bash", "-c", asked, "-", os.path.dirname(os.path.dirname(sources)), sources]
    run = subprocess.run(words, stdout=subprocess.PIPE, universal_newlines=True, check=False)
    if run.returncode != 0 or not run.stdout:
        raise Refused(f"{script}: {NOT_BUILT}")
    return run.stdout


def asked_of(words, files=()):
    """The bytes that one call writes, from the library if present; a refusal is reported in the program's own words."""
    if len(words) == 3 and (found := in_this_process(*words[1:])) is not None:
        return found
    environment = dict(os.environ, TALFT_EXPLAIN="1")
    try:
        run = subprocess.run(words, stdout=subprocess.PIPE, stderr=subprocess.PIPE, env=environment, pass_fds=files,
                             stdin=subprocess.DEVNULL, check=False)
    except OSError as error:
        raise not_run(words[0], error) from error
    if run.returncode != 0:
        told = run.stderr.decode("utf-8", "replace").strip()
        raise Refused(told or f"{words[2]}: {why(run.returncode, run.stdout.decode('utf-8', 'replace'))}")
    return run.stdout


def kind_of(path, data, wanted="an object, an assembly text or a source"):
    """Whether a file is an object, an assembly text or a source: by its first bytes, its name, or its last word."""
    if data.startswith(MAGIC):
        return "object"
    if not data.strip():
        raise Refused(f"{named(path)}: " + (f"is empty; expected {wanted}" if data else emptied(path, f"expected {wanted}")))
    if (found := kind_of_data(path, data[:LOOKED_AT])) in NEITHER:
        raise Refused(f"{named(path)}: is {found}; expected {wanted}")
    for kind, endings in (("object", (".obj",)), ("source", (".src",)), ("text", (".asm", ".txt", ".s"))):
        if path.endswith(endings):
            return kind
    words = [line.split()[0] for line in data.decode("utf-8", "replace").splitlines()
             if line.split() and not line.split()[0].startswith("#")]
    return "text" if words and words[-1] == "entry" else "source"


def kind_of_file(path, *wanted):
    """The kind of a file. `wanted` may say what it should be."""
    try:
        with open(path, "rb") as file:
            data = file.read()
    except OSError as error:
        raise Refused(f"{named(path)}: {reason(error)}") from error
    return kind_of(path, data, *wanted)


def shown_text(text):
    """A text as a terminal may show it: each character that it would not print is a question mark."""
    return "".join(letter if letter.isprintable() or letter in "\t\n" else "?" for letter in text)


def shown_lines(text):
    """The lines of a source, likewise."""
    return shown_text(text).removesuffix("\n").split("\n")


def is_text_of(text, object_file, files=()):
    """Whether an assembly text is that of an object, but for the initial words of cells."""
    with tempfile.NamedTemporaryFile(suffix=".obj") as made:
        put(made.name, asked_of([program(), "asm", text]))
        mine, other = (without_initial(asked_of([program(), "dis", file], files).decode().splitlines())
                       for file in (made.name, object_file))
        return mine == other


class Target:
    """The object, and what is known about it. Its copy in memory cannot change, and leaves no file behind."""

    def __init__(self, path, wild=None, text=None, source=None):
        self.path, self.wild, self.program = path, wild, built_program()
        try:
            with open(path, "rb") as file:
                data = file.read()
            self.stamp = self.stamp_now()
        except OSError as error:
            raise Refused(f"{named(path)}: {reason(error)}") from error
        self.kind = kind_of(path, data)
        if self.kind != "object":
            data = asked_of([self.program, "asm" if self.kind == "text" else "compile", path])
        self.file = os.memfd_create("object")
        self.object_file = f"/proc/self/fd/{self.file}"
        with naming(f"the copy of {path} in memory"), open(os.dup(self.file), "wb") as out:
            out.write(data)
        self.text_file = self.source_file = self.source = self.names = self.refused = None
        try:
            self.listing = Listing(self.ask("dis").decode().splitlines())
            for kind, option, given in (("text", "--text", text), ("source", "--source", source)):
                if self.kind == kind and given and not are_one(given, path):
                    raise Misused(f"{option}: {named(path)} is {'an assembly text' if kind == 'text' else 'a source'} itself; "
                                  f"leave {option} out")
            if self.kind == "text" or text:
                self.take_text(path if self.kind == "text" else text)
            if self.kind == "source" or source:
                self.take_source(path if self.kind == "source" else source)
        except Refused:
            self.close()
            raise

    def refusal(self):
        """What the checker says if it refuses the object, as lines; empty if it accepts it."""
        if self.refused is None:
            self.refused = self.asked_refusal()
        return self.refused

    def asked_refusal(self):
        """Likewise, from a call of the program."""
        environment = dict(os.environ, TALFT_EXPLAIN="1")
        run = subprocess.run([self.program, "check", self.object_file], stdout=subprocess.PIPE, stderr=subprocess.PIPE,
                             env=environment, pass_fds=[self.file], stdin=subprocess.DEVNULL, check=False)
        if run.returncode == 0:
            return []
        told = run.stderr.decode("utf-8", "replace").replace(self.object_file, self.path).splitlines()
        said = run.stdout.decode("utf-8", "replace").strip()
        return [f"the checker refuses this object ({said}), so nothing is promised about its runs:"] + [
            "  " + line for line in told]

    def ask(self, command):
        """What a command writes about the object."""
        try:
            return asked_of([self.program, command, self.object_file], [self.file])
        except Refused as error:
            raise Refused(str(error).replace(self.object_file, self.path)) from error

    def stamp_now(self):
        """What distinguishes one state of the file from another."""
        there = os.stat(self.path)
        return there.st_mtime_ns, there.st_size, there.st_ino

    def is_replaced(self):
        """Whether the file has changed since it was read."""
        try:
            return self.stamp_now() != self.stamp
        except OSError:
            return True

    def take_text(self, own):
        """Takes the user's own text instead of that of `dis`, if it assembles to the same object."""
        if not is_text_of(own, self.object_file, [self.file]):
            raise Refused(f"{named(own)}: does not assemble to {named(self.path)}; give the text that the "
                          "object was made from")
        with open(own, encoding="utf-8", errors="replace") as file:
            listing = Listing(file.read().splitlines())
        if listing.said() != self.listing.said():
            raise Refused(f"{named(own)}: differs from what `talft dis` writes; leave out --text")
        self.listing, self.text_file = listing, os.path.abspath(own)

    def take_source(self, own):
        """Takes the lines and names of a source, if the instructions are those that docs/COMPILER.md gives."""
        try:
            with open(own, encoding="utf-8", errors="replace") as file:
                text = file.read()
        except OSError as error:
            raise Refused(f"{named(own)}: {reason(error)}") from error
        if kind := kind_of_path(own):
            if kind != "a source" and self.kind != "source":
                text = "; `--text` takes the text that `talft-cc --text` wrote" if kind == "a C program" else ""
                raise Refused(f"{named(own)}: is {kind}; expected a source{text}")
        lines, names = lines_of(text, self.code)
        if lines is None:
            if self.kind != "source":
                if self.is_scheduled(own):
                    raise Refused(f"{named(self.path)}: is scheduled, so its instructions have no lines in {named(own)}; "
                                  "debug the object that `talft compile` wrote")
                raise Refused(f"{named(own)}: is not the source of {named(self.path)}: the instructions differ")
            return
        for instruction, line in zip(self.code, lines):
            instruction.source_line = line
        self.source, self.source_file, self.names = shown_lines(text), os.path.abspath(own), names

    def is_scheduled(self, source):
        """Whether the object is what `talft schedule` makes of the object of a source."""
        try:
            with tempfile.NamedTemporaryFile(suffix=".obj") as made:
                put(made.name, asked_of([self.program, "compile", source]))
                return asked_of([self.program, "schedule", made.name]) == self.ask("upgrade")
        except Refused:
            return False

    def close(self):
        """Releases the object."""
        if self.file is not None:
            os.close(self.file)
            self.file = None

    @property
    def code(self):
        """The instructions in order."""
        return self.listing.code

    def at(self, address):
        """The instruction at a code address, or None."""
        return self.listing.at(address)

    def line_named(self, text):
        """(line, whether it is one of the source) if a user says LINE, line LINE or FILE:LINE; else None."""
        match = re.fullmatch(r"(?:line\s+|(?P<file>\S.*):)?(?P<line>\d+)", text)
        if not match:
            return None
        if not match["file"]:
            return int(match["line"]), self.source is not None
        for file, is_source in ((self.source_file, True), (self.text_file, False)):
            if file and (match["file"] == os.path.basename(file) or os.path.realpath(match["file"]) == file):
                return int(match["line"]), is_source
        return None

    def find_parts(self, text):
        """The instruction that a user names; for a line, the start of each of its parts."""
        if named := self.line_named(text):
            found = self.listing.parts_of_line(*named)
            lines = [i.source_line if named[1] else i.line for i in self.code]
            why = f"there is no instruction on this line or after it: instructions are on lines {min(lines)} to {max(lines)}"
        else:
            found, why = [one for one in [self.listing.find(text)] if one], self.listing.why_not(text)
            if re.fullmatch(r".*[A-Za-z]\w*:\d+", text) and (self.source_file or self.text_file):
                file = os.path.basename(self.source_file or self.text_file)
                why = f"unknown file: only the lines of {file} are known"
        if not found:
            raise Refused(f"{quoted(text)}: {why}")
        return found

    def find(self, text):
        """The instruction that a user names; for a line, the first."""
        return self.find_parts(text)[0]

    def line_of(self, instruction, before=""):
        """`FILE:LINE` of an instruction with a text before it; empty for an object alone."""
        file = self.source_file or self.text_file
        return f"{before}{os.path.basename(file)}:{instruction.shown_line()}" if file else ""

    def place_of(self, instruction):
        """Where an instruction is: its block and index, and its line if there is one."""
        return f"block {instruction.block} index {instruction.index}{self.line_of(instruction, ', ')}"

    def check_array(self, name):
        """Refuses an array: only its cells are words."""
        array, _, rest = name.partition("[")
        count = sum(cell.startswith(array + "[") for cell in self.listing.cells)
        if rest[:-1].isdigit() and count and name not in self.listing.cells:
            raise Refused(f"{quoted(name)}: {self.size_of_array(array, count)}")
        place = (self.names or {}).get(name)
        if place and place.length is not None:
            raise Refused(f"`{name}` is an array of {place.length} cells: use {name}[0] to {name}[{place.length - 1}], "
                          f"or `x/{place.length} {name}`")

    @staticmethod
    def size_of_array(name, count):
        """How many cells an array has."""
        return f"{name} has {count} cell{'' if count == 1 else 's'}: 0 to {count - 1}"

    def command_of(self, script):
        """The bash command that runs a script of `talft debug` over this program."""
        path, made = shlex.quote(self.path), {"text": "asm", "source": "compile"}.get(self.kind)
        words = f"talft debug <(talft {made} {path})" if made else f"talft debug {path}"
        return words + (f" --wild {shlex.quote(self.wild)}" if self.wild else "") + f" <{shlex.quote(script)}"

    def cell_at(self, word):
        """The name of the cell at an address, or None."""
        number = cell_number(word, len(self.listing.cells))
        return None if number is None else self.listing.cells[number]

    def named(self, word):
        """A word, with the cell that has this address."""
        cell = self.cell_at(word)
        return f"{word} ({cell})" if cell else str(word)

    def named_target(self, word):
        """A word, with the instruction that has this address."""
        instruction = self.at(word)
        return f"{word} (block {instruction.block} index {instruction.index})" if instruction else self.named(word)

    def names_of(self, register):
        """The source's names for a register, after a space; empty if there are none."""
        for name, place in (self.names or {}).items():
            if place.pair is not None and register in (f"r{place.pair}", f"r{place.pair + 32}"):
                return f" [{name}]"
        return ""
