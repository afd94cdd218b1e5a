"""Sessions of the proved debugger: calls of `talft debug`, their answers, and windows of known states.

A session depends only on its strikes and its position (docs/COMMANDS.md), so nothing else is kept: each question is a
separate script, which goes from the start to the position by `step` and `zap` and then asks. One call gives a whole
window of neighbouring states, so that the next steps, forward and back, need no call."""
import collections
import contextlib
import re
import subprocess
import tempfile
import threading

from common import Refused, naming, not_run, program, why
from messages import named
from debugging.leaving import RUNNING, end_with_parent
from debugging.machine import REGISTERS, cell_number

WHERE = re.compile(r"at (\d+) (running|done|detected)(?: pcg (\d+) pcb (\d+))?(?: block (\d+) index (\d+))?")
REACHED = re.compile(r"^at (\d+) (running|done|detected)\n", re.M)
MOST_STEPS, MOST_SCRIPT = 1_000_000, 1_000_000
# How far a script of maximum length can go and still ask for a window.
MOST_POSITION = 3_000_000_000
# How many windows are kept, and how many bytes of outputs in all of them.
KEPT, MOST_KEPT = 24, 64_000_000
# How many states a window has before and after a position: more if getting there takes longer than reading them.
AROUND = ((200_000, 48, 80), (3_000_000, 240, 400), (None, 600, 1_200))
# A state includes its cells if there are at most this many.
FEW_CELLS = 32
# An answer of `reg` is shorter, and where each is in a state.
MOST_ANSWER, PLACE_OF = 40, {name: at for at, name in enumerate(REGISTERS)}
# How many states of the run without strikes `span` keeps.
MOST_CLEAN = 6_000

Strike = collections.namedtuple("Strike", "step site word planned", defaults=(False,))
Where = collections.namedtuple("Where", "position status pcg pcb block index")


class Interrupted(Exception):
    """The user stopped a run; the session is where it was."""


def steps(count):
    """The lines that take this many steps."""
    return ["step 1000000"] * (count // MOST_STEPS) + ([f"step {count % MOST_STEPS}"] if count % MOST_STEPS else [])


def made_by(strikes, position):
    """The strikes made at a position or before it."""
    return tuple(s for s in strikes if s.step <= position)


def check_position(position):
    """Refuses a position that is too far."""
    if position > MOST_POSITION:
        raise Refused(f"the position {position} is too far: a session ends at {MOST_POSITION}")


def path(strikes, start, end):
    """The script lines from one position to another, with the strikes on the way."""
    check_position(end)
    lines, here = [], start
    for strike in strikes:
        if start < strike.step <= end or strike.step == start == 0:
            lines += steps(strike.step - here) + [f"zap {strike.site} {strike.word}"]
            here = strike.step
    return lines + steps(end - here)


def ask(object_file, lines, wild=None):
    """The answers of one session, for tools that ask only once."""
    words = [program(), "debug", object_file] + (["--wild", wild] if wild else [])
    script = "\n".join([*lines, ""])
    try:
        run = subprocess.run(words, input=script, stdout=subprocess.PIPE, universal_newlines=True, check=False)
    except OSError as error:
        raise not_run(words[0], error) from error
    if run.returncode != 0:
        raise Refused(f"{named(object_file)}: {why(run.returncode, run.stdout)}")
    return Answers(run.stdout)


def length_of_run(object_file, most=MOST_STEPS, wild=None):
    """How many steps the run without a fault takes, up to a limit, and whether it has ended by then."""
    _, position, status = ask(object_file, [f"step {most}"], wild).step()
    return position, status != "running"


class Calls:
    """Calls of the program over one object. Another thread, or Ctrl-C, ends a long one."""

    def __init__(self, target):
        self.target, self.count = target, 0
        # Setting `stop` ends the running call, if `may_stop`; a run of many calls also tests it before each of them.
        self.stop, self.may_stop = threading.Event(), False

    @contextlib.contextmanager
    def unstoppable(self):
        """A context in which `stop` stays unset, to inspect where an interrupted run has got to."""
        stop, self.stop = self.stop, threading.Event()
        try:
            yield
        finally:
            self.stop = stop

    def ask(self, lines):
        """The answers of a session of these lines."""
        if self.may_stop and self.stop.is_set():
            raise Interrupted
        self.count += 1
        target = self.target
        words = [target.program, "debug", target.object_file] + (["--wild", target.wild] if target.wild else [])
        # A file, not a pipe: `communicate` forgets its remaining input when it is called again after a timeout.
        with naming(f"a temporary file in {tempfile.gettempdir()}"), tempfile.TemporaryFile("w+") as script:
            script.write("\n".join([*lines, ""]))
            script.seek(0)
            try:
                # In a separate process session: Ctrl-C goes to the tool, which then ends the call.
                run = subprocess.Popen(words, stdin=script, stdout=subprocess.PIPE, universal_newlines=True,
                                       start_new_session=True, pass_fds=[target.file], preexec_fn=end_with_parent)
            except OSError as error:
                raise not_run(words[0], error) from error
        return Answers(self.wait(run))

    def wait(self, run):
        """What a call writes. Nothing is left running, however this ends."""
        RUNNING.add(run)
        try:
            while True:
                try:
                    said, _ = run.communicate(timeout=0.2)
                    break
                except subprocess.TimeoutExpired:
                    if self.stop.is_set():
                        raise Interrupted from None
        except KeyboardInterrupt:
            raise Interrupted from None
        finally:
            if run.poll() is None:
                run.kill()
                run.communicate()
            RUNNING.discard(run)
        if run.returncode != 0:
            wild = f" --wild {self.target.wild}" if self.target.wild else ""
            raise Refused(f"{named(self.target.path)}{wild}: {why(run.returncode, said)}")
        return said


class Answers:
    """Reads the answers of a session in turn. They stay one text, as there may be millions of outputs among them."""

    def __init__(self, text):
        self.text, self.at = text, 0

    def line(self):
        """The next line."""
        end = self.text.find("\n", self.at)
        if end < 0:
            raise Refused("`talft debug` ended too soon: its answers are incomplete")
        line = self.text[self.at:end]
        self.at = end + 1
        return line

    def registers(self):
        """The answers of `reg` for all registers, as lines."""
        found = self.text[self.at:self.at + MOST_ANSWER * len(REGISTERS)].split("\n", len(REGISTERS))
        if len(found) <= len(REGISTERS):
            raise Refused("`talft debug` ended too soon: its answers are incomplete")
        del found[-1]
        self.at += sum(map(len, found)) + len(found)
        return found

    def step(self):
        """The answer of `step` or `go`: the outputs as lines of text, the position and the status."""
        match = REACHED.search(self.text, self.at)
        if not match:
            raise Refused("`talft debug` ended too soon: its answers are incomplete")
        outputs = self.text[self.at:match.start()]
        self.at = match.end()
        return outputs, int(match[1]), match[2]

    def path(self, script):
        """The answers of the lines of a path: all outputs, and which of its strikes were made."""
        outputs, made = [], []
        for line in script:
            if line.startswith("step"):
                outputs.append(self.step()[0])
            else:
                made.append(self.line() == "zapped")
        return "".join(outputs), made

    def skip(self, script):
        """Skips the answers of a path and of `break` lines."""
        for line in script:
            self.step() if line.startswith("step") else self.line()

    def where(self):
        """The answer of `where`."""
        match = WHERE.fullmatch(self.line())
        number = [None if part is None else int(part) for part in match.groups()[2:]]
        return Where(int(match[1]), match[2], *number)

    def register(self):
        """The answer of `reg`: colour and word."""
        _, colour, word = self.line().split(" ")
        return colour, int(word)

    def cell(self):
        """The answer of `cell`, or None if there is no such cell."""
        line = self.line()
        return None if line == "no cell" else int(line.split(" ")[1])

    def queue(self):
        """The answer of `queue`. An answer of `step`, `reg` or `where` must follow it, or the end."""
        pairs = []
        while self.at < len(self.text) and (self.text[self.at].isdigit() or self.text.startswith("empty\n", self.at)):
            line = self.line()
            if line != "empty":
                address, value = line.split(" ")
                pairs.append((int(address), int(value)))
        return pairs


class State:
    """What the program says about one position."""

    __slots__ = ("position", "status", "pcg", "pcb", "block", "index", "lines", "queue", "cells", "commits", "count")

    def __init__(self, answers, cells, count, commits):
        """Reads the answers of `questions`."""
        self.commits, self.count = commits, count
        # Of most states only a few words are read, or none.
        self.lines = answers.registers()
        self.cells = {name: answers.cell() for name in cells}
        self.queue = answers.queue()
        self.position, self.status, self.pcg, self.pcb, self.block, self.index = answers.where()

    def register(self, name):
        """The colour and the word of a register."""
        _, colour, word = self.lines[PLACE_OF[name]].split(" ")
        return colour, int(word)

    @property
    def words(self):
        """The colour and the word of each register, by name."""
        return {name: self.register(name) for name in REGISTERS}

    def word(self, name):
        """The word of a register, a counter or a part of the queue; None if it does not exist."""
        if name in ("pcg", "pcb"):
            return getattr(self, name)
        if name in PLACE_OF:
            return self.register(name)[1]
        if name[:2] in ("qa", "qv") and name[2:].isdigit() and int(name[2:]) < len(self.queue):
            return self.queue[int(name[2:])][name[1] == "v"]
        return None

    def colour(self, name):
        """The colour of a register or a counter."""
        return {"pcg": "G", "pcb": "B"}.get(name) or self.register(name)[0]

    def is_cell(self, word):
        """Whether a cell has this address."""
        return cell_number(word, self.count) is not None

    def all_words(self, other=None):
        """Each word that can be struck, and each known cell, by name; without registers that are as in the other state."""
        names = REGISTERS if other is None else [
            name for name, line, others in zip(REGISTERS, self.lines, other.lines) if line != others]
        found = {name: self.register(name)[1] for name in names}
        found.update(pcg=self.pcg, pcb=self.pcb)
        for i, (address, value) in enumerate(self.queue):
            found[f"qa{i}"], found[f"qv{i}"] = address, value
        found.update(("cell " + name, word) for name, word in self.cells.items())
        return found


class Window:
    """Consecutive states, and the outputs before them."""

    def __init__(self, strikes, first, before):
        self.strikes, self.first, self.before, self.states = strikes, first, before, []
        self.count = before.count("\n")

    @property
    def last(self):
        """The position of the last state."""
        return self.first + len(self.states) - 1

    def has(self, position, strikes):
        """Whether the state of a run with these strikes is known at a position. A run that has stopped stays as it is."""
        if position > self.last and self.states[-1].status != "running":
            position = self.last
        return self.first <= position <= self.last and made_by(self.strikes, position) == made_by(strikes, position)


class Outputs:
    """The outputs up to a position: the text before a window, and what its steps committed."""

    def __init__(self, before, count, after):
        self.before, self.count, self.after = before, count, after

    def __len__(self):
        return self.count + self.after.count("\n")

    def text(self):
        """All outputs."""
        return self.before + self.after

    def since(self, first):
        """The lines from number `first` on."""
        if first >= self.count:
            return self.after.splitlines()[first - self.count:]
        return self.text().splitlines()[first:]

    def last(self, count):
        """The last lines."""
        return self.since(max(0, len(self) - count))


class Timeline:
    """The states of runs with strikes, in cached windows."""

    def __init__(self, target):
        self.target, self.calls = target, Calls(target)
        # Whether a strike found nothing when it was last made, as a planned one may.
        self.windows, self.idle = [], {}
        names = target.listing.cells
        self.told_cells = names if len(names) <= FEW_CELLS else []
        questions = [f"reg {name}" for name in REGISTERS] + [f"cell {name}" for name in self.told_cells]
        self.questions = "\n".join(questions + ["queue", "where"])
        # Consecutive states of the run without strikes, for `span`.
        self.clean = []
        size = len(self.questions) + 21
        self.most_states = max(1, (MOST_SCRIPT - 2000) // size)

    def window(self, position, strikes):
        """A window that has the state at a position."""
        check_position(position)
        for kept in self.windows:
            if kept.has(position, strikes):
                self.windows.remove(kept)
                self.windows.insert(0, kept)
                return kept
        before, after = next(rest for most, *rest in AROUND if most is None or position < most)
        first = max(0, position - min(before, self.most_states // 2))
        made = self.read(first, min(position - first + after + 1, self.most_states), strikes)
        self.windows.insert(0, made)
        del self.windows[KEPT:]
        while len(self.windows) > 1 and sum(len(kept.before) for kept in self.windows) > MOST_KEPT:
            del self.windows[-1]
        return made

    def read(self, first, count, strikes):
        """Reads a window of states from a position on, with one call."""
        lead = path(strikes, 0, first)
        script, step = lead + [self.questions], "step 1\n" + self.questions
        struck_at = {strike.step for strike in strikes}
        for at in range(first + 1, first + count):
            if at in struck_at:
                script += ["step 1", *(f"zap {s.site} {s.word}" for s in strikes if s.step == at), self.questions]
            else:
                script.append(step)
        answers = self.calls.ask(script)
        outputs, struck = answers.path(lead)
        self.idle.update((strike, not was) for strike, was in zip(made_by(strikes, first), struck))
        made = Window(strikes, first, outputs)
        made.states.append(self.state(answers, ""))
        if made.states[0].position != first:
            # The machine stopped earlier.
            made.first = made.states[0].position
            return made
        for at in range(first + 1, first + count):
            commits, position, _ = answers.step()
            if position != at:
                break
            for strike in strikes:
                if strike.step == at:
                    self.idle[strike] = answers.line() != "zapped"
            made.states.append(self.state(answers, commits))
        return made

    def state(self, answers, commits):
        """The next state in the answers."""
        return State(answers, self.told_cells, len(self.target.listing.cells), commits)

    def state_at(self, position, strikes):
        """The state at a position, or where the machine stopped before it."""
        window = self.window(position, strikes)
        return window.states[min(position, window.last) - window.first]

    def span(self, first, last, strikes):
        """The states from one position to another. Those without strikes are kept for the next span."""
        for window in self.windows:
            if window.has(first, strikes) and window.has(last, strikes):
                return window.states[min(first, window.last) - window.first:last - window.first + 1]
        if strikes:
            return self.read_span(first, last, strikes)
        clean = self.clean
        if not clean or not clean[0].position <= first <= clean[-1].position:
            clean = self.read_span(first, last, ())
        elif clean[-1].position < last and clean[-1].status == "running":
            clean = clean[:-1] + self.read_span(clean[-1].position, last, ())
        self.clean = clean[-MOST_CLEAN:]
        at = max(0, first - clean[0].position)
        return clean[at:at + last - first + 1]

    def read_span(self, first, last, strikes):
        """The states from one position to another, with one call for as many as fit into a script."""
        found, at = [], first
        while at <= last:
            window = self.read(at, min(last - at + 1, self.most_states), strikes)
            found += window.states
            if window.first != at or window.last < min(last, at + self.most_states - 1):
                break
            at = window.last + 1
        return found

    def keep(self, first, last, strikes):
        """Reads the states from one position to another as a window, if they fit into one."""
        if last - first < self.most_states:
            self.windows.insert(0, self.read(first, last - first + 1, strikes))
            del self.windows[KEPT:]

    def outputs(self, position, strikes):
        """The outputs up to a position."""
        window = self.window(position, strikes)
        after = "".join(state.commits for state in window.states[:max(0, position - window.first) + 1])
        return Outputs(window.before, window.count, after)

    def ask_at(self, position, strikes, questions):
        """The answers of questions at a position."""
        lead = path(strikes, 0, position)
        answers = self.calls.ask(lead + questions)
        answers.skip(lead)
        return answers

    def cells(self, position, strikes, names=None):
        """The words of these cells, or of all."""
        state = self.state_at(position, strikes)
        names = self.target.listing.cells if names is None else names
        lacking = [name for name in names if name not in state.cells]
        if lacking:
            answers = self.ask_at(state.position, strikes, [f"cell {name}" for name in lacking])
            state.cells.update((name, answers.cell()) for name in lacking)
        return {name: state.cells[name] for name in names}
