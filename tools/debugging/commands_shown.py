"""The commands of the prompt that show something, and its completion."""
import os
import re

from common import SITES, Refused
from debugging import explaining, views
from debugging.help import ELSEWHERE, HELP, INFO, SHORT, TOPICS, help_lines, help_of
from debugging.reading import no_dollar, no_more, number, one_word, word_of
from debugging.target import shown_text
from messages import near, quoted

# How many lines `list` shows.
LISTED = 10


class Shown:
    """Commands that show; the session, `say` and the rest are those of Commands."""

    def do_info(self, words):
        topics = [topic for topic in INFO if words and topic.startswith(words[0])]
        if words and words[0] in ELSEWHERE:
            raise Refused(f"unknown topic `{words[0]}`: {ELSEWHERE[words[0]]}")
        if len(topics) != 1:
            told = f"unknown topic {quoted(words[0])}" if words else "missing topic"
            raise Refused(f"{told}: expected info {'|'.join(INFO)}{near(words[0], INFO) if words else ''}")
        call = {"breaks": self.breaks, "strikes": self.strikes, "names": self.names}.get(topics[0])
        if call:
            call()
        elif topics[0] == "position":
            self.do_where([])
        else:
            getattr(self, "do_" + topics[0])(words[1:])

    def strikes(self):
        """Prints all strikes."""
        session = self.session
        lines = []
        for strike in session.strikes:
            line = f"  {strike.step}:{strike.site}:{strike.word}" + (" planned" if strike.planned else "")
            if strike.step > session.position:
                line += ", not made yet"
            elif session.timeline.idle.get(strike):
                line += ", nothing was there"
            lines.append(line)
        self.say(*lines or ["no strike"])

    def breaks(self):
        """Prints all breakpoints, with their hits so far, and all watches."""
        session = self.session
        lines = []
        for at, one in session.breaks.items():
            hits = explaining.counted(session.hits(one), "hit")
            here = one.instruction
            parts = [f"  {at}", f"break {here.block} {here.index}", here.short(), one.told()]
            lines.append("  ".join([part for part in parts if part] + [f"{hits} so far"]))
        lines += [f"  {at}  watch {' '.join(sites)}" for at, sites in session.watches.items()]
        self.say(*lines or ["no breakpoints or watches"])

    def names(self):
        """Prints the source's names and their places."""
        names = self.session.target.names
        lines = [f"  {name}  {place.told()}" for name, place in (names or {}).items()]
        self.say(*lines or ["no source names are known: `talft-debugger OBJECT --source SOURCE` names an object's source"])

    def note(self, *lines):
        """Records the lines of `talft debug` that show the same."""
        self.session.journal.put(*lines)

    def do_registers(self, words):
        every = bool(words) and "all".startswith(words[0])
        if every:
            no_more(words[1:])
        elif words:
            self.some_registers(words)
            return
        self.note(*[f"reg {name}" for name in SITES[:67]])
        self.say(*views.register_lines(self.session, self.paint, every, self.before))

    def some_registers(self, words):
        """Prints the pairs of these registers, and the counters among them."""
        sites = [site for name in words for site in self.session.registers_of(name)]
        for site in sites:
            if site.startswith("$"):
                raise no_dollar(site)
            if site not in SITES[:67]:
                raise Refused(f"unknown register {quoted(site)}: expected r0 to r63, d, pcg, pcb or `all`")
        wanted = dict.fromkeys(int(site[1:]) % 32 for site in sites if site[0] == "r")
        others = [site for site in dict.fromkeys(sites) if site[0] != "r"]
        self.note(*[f"reg r{i + of}" for i in wanted for of in (0, 32)], *[f"reg {name}" for name in others])
        if wanted:
            self.say(*views.pair_lines(self.session, self.paint, wanted, self.before))
        for name in others:
            self.say(self.told_word(name))

    def do_queue(self, words):
        self.note("queue")
        self.say(*views.queue_lines(self.session))

    def do_cells(self, words):
        cells = self.session.cells()
        self.note(*[f"cell {name}" for name in cells])
        self.say(*[f"  {name} {word}" for name, word in cells.items()] or ["no cells"])

    def told_word(self, name, base=""):
        """A word by its name; a variable's in both colours."""
        session = self.session
        told = []
        for site in session.registers_of(name):
            word, state = session.word(site), session.state()
            has_colour = site in state.words or site in ("pcg", "pcb")
            told.append(f"{site}{' ' + state.colour(site) if has_colour else ''} {views.BASES[base](word)}")
        return told[0] if told[0].split()[0] == name else f"{name}: " + ", ".join(told)

    def do_print(self, words, base=""):
        if not words:
            raise Refused("missing name: write it as in `print r1`")
        if base[-1:] in ("w", "g", "h") and base[:-1] in views.BASES:
            raise Refused(f"unknown format `/{base[:40]}`: all words have 64 bits: leave out the `{base[-1]}`, as in `x/4x out`")
        if base not in views.BASES:
            raise Refused(f"unknown format `/{base[:40]}`: expected /x, /b, /o or /d")
        if any(not name[0].isalnum() and name[0] != "$" for name in words):
            raise Refused(f"{quoted(' '.join(words))}: `print` takes names, as in `print r1 out`, not expressions")
        for name in words:
            line = self.told_word(name, base)
            for site in self.session.registers_of(name):
                self.note("cell " + site if site in self.session.target.listing.cells else
                          "queue" if site[0] == "q" else "reg " + site)
            self.say(line)

    def do_x(self, words, count=""):
        names = self.session.target.listing.cells
        word = one_word(words, "missing cell, array or address: write it as in `x/3 out`")
        first = next((name for name in (word, word + "[0]") if name in names), None)
        if first is None and word.replace("_", "").isalnum() and word[0].isdigit():
            first = self.session.target.cell_at(word_of(word))
        if first is None:
            self.session.target.check_array(word)
            raise Refused(f"unknown name {quoted(word)}: expected a cell, an array or the address of a cell"
                          f"{near(word, names)}")
        digits = re.match(r"\d*", count)[0]
        if digits and int(digits) == 0:
            raise Refused(f"invalid count in `x/{count[:40]}`: expected at least 1 cell")
        at, array = names.index(first), first.partition("[")[0]
        wanted = names[at:at + int(digits or 1)]
        shown = [name for name in wanted if name.partition("[")[0] == array] if "[" in first else wanted
        for name in shown:
            self.do_print([name], count[len(digits):])
        if len(shown) < int(digits or 1):
            size = self.session.target.size_of_array(array, sum(name.startswith(array + "[") for name in names))
            self.say(size if "[" in first else f"{shown[-1]} is the last cell")

    def do_list(self, words):
        """Ten lines of the source, or of the assembly text: around the place, around a line, or the next ten."""
        target, here = self.session.target, self.session.current()
        is_source = target.source is not None
        lines = target.source if is_source else [shown_text(line) for line in target.listing.lines]
        current = here and (here.source_line if is_source else here.line)
        if words:
            first = self.line_wanted(" ".join(words), is_source, len(lines)) - LISTED // 2
        elif self.listed and self.listed[0] == self.session.position:
            first = self.listed[1] + 1
        elif current:
            first = current - LISTED // 2
        else:
            raise Refused("no instruction is here: give a line, as in `list 1`")
        if first > len(lines):
            raise Refused(f"line {len(lines)} is the last one: `list 1` starts over")
        first = max(1, first)
        last = min(first + LISTED - 1, len(lines))
        self.listed = self.session.position, last
        for number in range(first, last + 1):
            arrow = "=>" if number == current else "  "
            self.say(self.paint("here" if number == current else None, f"{arrow} {number:>4}  {lines[number - 1]}".rstrip()))

    def line_wanted(self, text, is_source, count):
        """The line that a user names: by its number, or by a place."""
        named = self.session.target.line_named(text)
        if named and named[1] == is_source:
            if not 1 <= named[0] <= count:
                raise Refused(f"unknown line {named[0]}: the lines are 1 to {count}")
            return named[0]
        instruction = self.session.target.find(text)
        return (instruction.source_line if is_source else instruction.line) or 1

    def do_disassemble(self, words):
        if len(words) == 1 and words[0].isdigit():
            self.say(*views.code_lines(self.session, self.paint, int(words[0])))
        else:
            at = self.session.target.find(" ".join(words)).address if words else None
            self.say(*views.code_lines(self.session, self.paint, 5, at))

    def do_where(self, words):
        self.note("where")
        state = self.session.state()
        place = "" if state.block is None else f" block {state.block} index {state.index}"
        self.say(f"{views.status_line(self.session)} pcg {state.pcg} pcb {state.pcb}{place}", views.doing(self.session))

    def do_outputs(self, words):
        outputs, most = self.session.outputs(), number(words, 20)
        last = f", the last {most}:" if len(outputs) > most else ""
        count = explaining.counted(len(outputs), "output")
        self.say(count + last, *["  " + line for line in outputs.last(most)])

    def do_diff(self, words):
        rows = explaining.differences(self.session.state(), self.session.unstruck())
        lines = ["  " + explaining.Change.difference(self.session.target, *row) for row in rows]
        self.say(*lines or ["no word differs"])

    def do_help(self, words):
        if words and words[0] in TOPICS:
            if SHORT.get(words[0]) in HELP:
                self.say(f"`{words[0]}` is also short for `{SHORT[words[0]]}`: `help {SHORT[words[0]]}`")
            self.say(*TOPICS[words[0]].splitlines())
        else:
            self.say(*help_of(self.resolve(words[0])) if words else help_lines())

    # COMPLETION

    def complete(self, line):
        """Completions of the last word of a line."""
        words = line.split(" ")
        start = words[-1]
        if len(words) == 1:
            names = sorted(HELP) + sorted(name for name in SHORT if len(name) > 2)
            return [name for name in names if name.startswith(start)]
        try:
            name = self.resolve(words[0].split("/")[0])
        except Refused:
            return []
        if name in ("source", "record"):
            return files(start)
        return [word for word in self.known(name, len(words) == 2) if word.startswith(start)]

    def known(self, name, is_first):
        """The words that may follow a command."""
        listing, names = self.session.target.listing, list(self.session.target.names or {})
        if name in ("break", "tbreak", "disassemble", "until"):
            return list(listing.labels) + [f"b{block}" for block in range(len(listing.blocks))]
        if name in ("zap", "flip"):
            return SITES if is_first else []
        return {"print": SITES + listing.cells + names, "display": SITES + listing.cells + names,
                "watch": SITES[:67] + listing.cells + names, "x": listing.cells, "info": INFO,
                "undisplay": self.displayed,
                "help": sorted(HELP) + list(TOPICS)}.get(name, [])


def files(start):
    """Files that complete a word."""
    folder, base = os.path.split(start)
    try:
        return [os.path.join(folder, file) for file in sorted(os.listdir(folder or ".")) if file.startswith(base)]
    except OSError:
        return []
