"""What people read, as lines: registers in both colours, the queue, cells, instructions, and the timeline."""
import os

from debugging.explaining import counted
from debugging.machine import is_fetch, own_colour, written_register

RESET = "\033[0m"
STYLES = {"green": "\033[32m", "blue": "\033[34m", "differs": "\033[1;31m", "dim": "\033[2m", "here": "\033[1m",
          "changed": "\033[33m", "break": "\033[31m", "green changed": "\033[1;32m", "blue changed": "\033[1;34m"}
MOST_CHANGES = 12
# What the marks of pairs mean.
MARKS = {"*": "* differs because of a strike", "~": "~ differs anyway"}


class Paint:
    """Colours on a terminal, unless NO_COLOR is set; otherwise plain text."""

    def __init__(self, stream):
        self.on = stream.isatty() and not os.environ.get("NO_COLOR") and os.environ.get("TERM") != "dumb"

    def __call__(self, style, text):
        return f"{STYLES[style]}{text}{RESET}" if self.on and style else text


def plain(style, text):
    """Replaces Paint for lines without colours."""
    return text


# How a word is written: in decimal, or in the base of gdb's letter.
BASES = {"": str, "d": str, "x": hex, "b": bin, "o": oct}


def spelled(session, word):
    """A word, with the cell that has this address."""
    cell = session.target.cell_at(word)
    return f"{word} {cell}" if cell else str(word)


class Pair:
    """A register of each colour, as the compiler pairs them: rI and r(32 + I).

    Its mark is a star if the words differ, and `~` if they also differ in the run without the strikes, as between a
    green instruction and its blue one."""

    def __init__(self, session, i, state, before, clean):
        self.names = (f"r{i}", f"r{i + 32}")
        words = [state.register(name) for name in self.names]
        self.bare = [f"{name:<4}{colour} {word}" for name, (colour, word) in zip(self.names, words)]
        self.named = [self.bare[0] + session.target.names_of(self.names[0]), self.bare[1]]
        told = [f"{name:<4}{colour} {spelled(session, word)}" for name, (colour, word) in zip(self.names, words)]
        self.green, self.blue = told[0] + session.target.names_of(self.names[0]), told[1]
        self.differs = words[0][1] != words[1][1]
        is_usual = clean is not None and all(clean.register(name) == state.register(name) for name in self.names)
        self.mark = ("~" if is_usual else "*") if self.differs else " "
        self.changed = [before is not None and before.register(name) != state.register(name) for name in self.names]
        self.is_unset = words == [("G", 0), ("G", 0)]

    def within(self, *widths):
        """The green and the blue text; if they don't fit, without the cell's name, or without any name."""
        return [next((text for text in texts if len(text) <= width), texts[-1])
                for width, *texts in zip(widths, (self.green, self.blue), self.named, self.bare)]


def pairs(session, before=None):
    """Each pair of registers; what changed since the state before is marked."""
    state = session.state()
    # Once the runs have diverged, the other one says nothing about this place.
    clean = session.unstruck() if session.strikes else state
    clean = clean if (clean.position, clean.pcg) == (state.position, state.pcg) else None
    return [Pair(session, i, state, before, clean) for i in range(32)]


def shown_pairs(paint, rows, width):
    """The lines of some pairs, under their heading."""
    lines = ["  " + paint("green", f"{'green':<{width}}") + paint("blue", "blue")]
    for row in rows:
        style = "differs" if row.mark == "*" else None
        lines.append(paint(style, row.mark + " ")
                     + paint(style or "green" + " changed" * row.changed[0], f"{row.green:<{width}}")
                     + paint(style or "blue" + " changed" * row.changed[1], row.blue))
    return lines


def marks_of(paint, rows):
    """What the marks of these pairs mean."""
    return [paint("dim", MARKS[mark]) for mark in "*~" if any(row.mark == mark for row in rows)]


def pair_lines(session, paint, wanted, before=None):
    """The pairs of these green registers, as `register_lines` has them."""
    every = pairs(session, before)
    rows = [every[i] for i in wanted]
    return shown_pairs(paint, rows, max(24, max(len(row.green) for row in rows) + 2)) + marks_of(paint, rows)


def register_lines(session, paint, every=False, before=None):
    """Both colours side by side, with the marks of pairs that differ."""
    state, rows = session.state(), pairs(session, before)
    width = max(24, max(len(row.green) for row in rows) + 2)
    shown = [row for row in rows if every or not row.is_unset]
    lines = shown_pairs(paint, shown, width)
    if len(shown) < len(rows):
        lines.append(paint("dim", f"  {len(rows) - len(shown)} pairs still have their initial value, G 0"
                                  " (`info registers all` shows them)"))
    same = state.pcg == state.pcb
    lines.append(paint(None if same else "differs",
                       f"{'  ' if same else '* '}{'pcg G ' + str(state.pcg):<{width}}pcb B {state.pcb}"))
    lines.append(f"  d   G {spelled(session, state.word('d'))}")
    return lines + marks_of(paint, shown)


def queue_lines(session):
    """The pending stores."""
    queue = session.state().queue
    return [f"  {i}  {spelled(session, address):<20} {value}" + ("   oldest" if i == 0 else "")
            for i, (address, value) in enumerate(queue)] or ["the queue is empty"]


def place_of(session, instruction):
    """Where an instruction is: its block and index, and its label."""
    label = session.target.listing.label_of(instruction.block)
    return f"block {instruction.block} index {instruction.index}" + (f" <{label}+{instruction.index}>" if label else "")


def place_and_line(session, instruction):
    """Likewise, with the line of the text or of the source, if there is one."""
    return place_of(session, instruction) + session.target.line_of(instruction, ", ")


def block_line(session, block):
    """The head of a block."""
    label = session.target.listing.label_of(block)
    return f"block {block}" + (f" <{label}>" if label else "")


def code_rows(session, first, last):
    """(instruction, whether a breakpoint is there, arrow) between two addresses."""
    state, current, places = session.state(), session.current(), session.places()
    rows = []
    for address in range(max(1, first), min(len(session.target.code), last) + 1):
        instruction = session.target.at(address)
        arrow = "=>" if instruction is current else "  "
        if state.status == "running" and state.pcg != state.pcb:
            arrow = {state.pcg: "G>", state.pcb: "B>"}.get(address, arrow)
        rows.append((instruction, instruction.key() in places, arrow))
    return rows


def colour_of(instruction):
    """The style of an instruction's colour; where it has none of its own, that of the register it writes, or None."""
    words = instruction.words
    colour, register = own_colour(words), written_register(words)
    if words[0] == "mov":
        colour = words[2]
    if colour is None and register is not None and register[1:].isdigit():
        colour = "G" if int(register[1:]) < 32 else "B"
    return {"G": "green", "B": "blue"}.get(colour)


def code_lines(session, paint, around=5, at=None):
    """Instructions around the counters, or around an address, with an arrow."""
    current = session.current()
    here = at or (current.address if current else session.state().pcg)
    if not 1 <= here <= len(session.target.code):
        return [f"no instruction has the address {here}"]
    lines, source = [], None
    for instruction, is_break, arrow in code_rows(session, here - around, here + around):
        if instruction.index == 0:
            lines.append(paint("dim", block_line(session, instruction.block)))
        if instruction.source_line and instruction.source_line != source:
            source = instruction.source_line
            lines.append(paint("dim", f"  {source}: {session.target.source[source - 1].strip()}"))
        text = f"{arrow} {'b' if is_break else ' '}{instruction.address:>5} {instruction.place():<7}{instruction.text}"
        lines.append(paint("here" if arrow != "  " else colour_of(instruction), text))
    return lines


def key_name(key):
    """The name of a key of the screen."""
    return key if isinstance(key, str) and key.isprintable() else "this key"


def doing(session):
    """What the next step does."""
    state, current = session.state(), session.current()
    if state.status == "done":
        return "the machine is done"
    if state.status == "detected":
        return "the machine has stopped itself: `explain` says why"
    if current is None:
        return f"the next step fetches where there is no instruction, or the counters differ: pcg {state.pcg} pcb {state.pcb}"
    verb = "fetches" if is_fetch(state.position) else "executes"
    return f"the next step {verb} {current.short()}  ({place_and_line(session, current)})"


def size_of(target):
    """How large a program is."""
    counts = ((target.code, "instruction"), (target.listing.blocks, "block"), (target.listing.cells, "cell"))
    return ", ".join(counted(len(things), noun) for things, noun in counts)


def strike_lines(session, old, strikes):
    """What a move does to the earlier strikes: made here, ahead again, forgotten."""
    lines = []
    for strike in strikes:
        name = f"{strike.step}:{strike.site}:{strike.word}"
        if strike.step == session.position and strike in session.strikes:
            lines.append(f"the strike {name} is made here" if not session.timeline.idle.get(strike)
                         else f"the strike {name} found nothing here")
        elif old < strike.step < session.position and session.timeline.idle.get(strike):
            lines.append(f"the strike {name} was not made: nothing was there")
        elif session.position < strike.step and session.state().status != "running" and strike in session.strikes:
            lines.append(f"the strike {name} is not made: the run ended at {session.position}, before it")
        elif session.position < strike.step <= old:
            lines.append(f"the strike {name} is ahead again" if strike in session.strikes
                         else f"the strike {name} is forgotten: `undo` brings it back")
    return lines


def status_line(session):
    """The position and the status."""
    state = session.state()
    return f"at {state.position} {state.status}"


def change_lines(session, before, after, paint):
    """The words that differ between two states, except the counters."""
    left, right = before.all_words(), after.all_words()
    lines = []
    for name in sorted(set(left) | set(right), key=lambda name: (name[0] == "c", name)):
        if name in ("pcg", "pcb") or left.get(name) == right.get(name):
            continue
        old, new = ("nothing" if name not in side else spelled(session, side[name]) for side in (left, right))
        lines.append(paint("changed", f"  {name}{session.target.names_of(name)}: {old} -> {new}"))
    if len(lines) > MOST_CHANGES:
        lines[MOST_CHANGES:] = [f"  .. and {len(lines) - MOST_CHANGES} more words changed"]
    return lines


def time_line(session, width, length=0):
    """The run as a bar: o is here, ! is a strike, @ is both."""
    end = max(length, session.position, 1)
    width = max(10, width)
    marks = ["-"] * width

    def at(position):
        return min(width - 1, position * (width - 1) // end)
    for strike in session.strikes:
        if strike.step <= end:
            marks[at(strike.step)] = "!"
    marks[at(session.position)] = "o" if marks[at(session.position)] == "-" else "@"
    return "".join(marks)
