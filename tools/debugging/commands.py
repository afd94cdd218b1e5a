"""The commands of the prompt, with gdb's names where gdb has them. None of them computes what the machine would do."""
import re

from common import Refused
from debugging import breaks, explaining, runs, stepping, views
from debugging.commands_shown import Shown
from debugging.help import ALONE, ELSEWHERE, HELP, SHORT
from debugging.reading import no_more, no_sign, number, one_word, word_of
from messages import listed, named, near, quoted, reason

# How many outputs of a move are printed, and the longest move whose changes are printed.
MOST_OUTPUTS, MOST_CHANGED = 20, 64
# How far `end` goes, and without a terminal each move that looks for its end.
MOST_TO_END = 1_000_000
MOST_NESTED = 8


class Quit(Exception):
    """The user quits."""


class Commands(Shown):
    """Executes commands over a session; `out` takes lines, and `sure` asks whether a file may be overwritten.

    If a screen shows the session (`is_shown`), no command prints where a move led."""

    def __init__(self, session, paint, out, sure=None, is_shown=False):
        self.session, self.paint, self.out, self.is_shown = session, paint, out, is_shown
        self.sure = sure or (lambda question: False)
        self.depth, self.before, self.displayed = 0, None, []
        # Where `list` was last asked, and the last line that it showed.
        self.listed = None
        self.told_replaced, self.told_short = False, False

    def resolve(self, name):
        """The full name of a command."""
        name = SHORT.get(name, name)
        if name in HELP:
            return name
        if name in ELSEWHERE:
            raise Refused(f"unknown command `{name}`: {ELSEWHERE[name]}")
        begun = [full for full in HELP if full.startswith(name)]
        if len(begun) == 1:
            return begun[0]
        if begun:
            raise Refused(f"ambiguous command `{name}`: {listed(begun)}")
        raise Refused(f"unknown command {quoted(name)}{near(name, HELP)}; `help` lists the commands")

    def do(self, line):
        """Executes one line; returns the command's name, so that it can be repeated."""
        line = line.strip()
        if not line or line.startswith("#"):
            return None
        match = re.match(r"([a-z?-]+)(?:/(\w+))?(?:\s+|$)(.*)", line)
        if not match:
            raise Refused(f"unknown command {quoted(line)}; `help` lists the commands")
        name, words = self.resolve(match[1]), match[3].split()
        if ";" in line and name not in ("source", "record"):
            raise Refused("one command at a time: give each its own line, or its own `-c`")
        call = getattr(self, "do_" + name.replace("-", "_"))
        if name in ("source", "record") and words:
            # A path may contain blanks.
            words = [match[3].strip()]
        if name in ("print", "x"):
            call(words, match[2] or "")
            return name
        if match[2]:
            raise Refused(f"unexpected format `/{match[2][:40]}`: `{name}` takes none")
        if name in ALONE:
            no_more(words, name)
        call(words)
        if match[1] == "r" and not self.told_short:
            self.told_short = True
            self.say("`r` is short for `registers`; `run` goes to the start, and `continue` runs on from here")
        return name

    def say(self, *lines):
        """Prints lines."""
        for line in lines:
            self.out(line)

    # MOVES

    def moved(self, call, *words):
        """Executes a move, and prints what it did."""
        session = self.session
        before, count, strikes = session.state(), len(session.outputs()), session.strikes
        result = call(*words)
        after, outputs = session.state(), session.outputs()
        new = len(outputs) - count if after.position > before.position else 0
        if not self.is_shown:
            self.say(*self.new_outputs(outputs, new))
            if abs(after.position - before.position) <= MOST_CHANGED:
                self.say(*views.change_lines(session, before, after, self.paint))
        self.before = before
        self.at()
        self.say(*views.strike_lines(session, before.position, strikes))
        return result

    def new_outputs(self, outputs, new):
        """The last outputs, and how many are left out."""
        if new <= MOST_OUTPUTS:
            return outputs.last(new) if new else []
        left = explaining.counted(new - MOST_OUTPUTS, "output")
        return [self.paint("dim", f".. {left} .."), *outputs.last(MOST_OUTPUTS)]

    def at(self):
        """Prints the place."""
        if not self.is_shown:
            self.say(self.paint("here", views.status_line(self.session)), views.doing(self.session))
            self.say(*self.display_lines())
        if not self.told_replaced and self.session.target.is_replaced():
            self.told_replaced = True
            self.say(f"{named(self.session.target.path)} was replaced: this session keeps what it read at its start")

    def display_lines(self):
        """The displayed words, with a note if one does not exist now."""
        lines = []
        for name in self.displayed:
            try:
                lines.append("  " + self.told_word(name))
            except Refused as error:
                lines.append(f"  {error}")
        return lines

    def do_step(self, words):
        self.moved(self.session.step, number(words, 1))

    def do_back(self, words):
        self.moved(self.session.back, number(words, 1))

    def do_next(self, words):
        self.forward(number(words, 1, 1), False)

    def forward(self, count, by_line):
        """Steps instructions or lines forward; names the breakpoints that end the move."""
        old = self.session.position
        stop = self.moved(stepping.forward, self.session, count, by_line)
        if isinstance(stop, runs.Stop):
            self.halted(stop)
        elif self.session.position > old:
            self.told_breaks()

    def do_reverse_next(self, words):
        self.moved(stepping.back, self.session, number(words, 1, 1), False)

    def lines_known(self):
        """Refuses if no source lines are known."""
        if self.session.target.source is None:
            raise Refused("no source lines are known: `next` executes an instruction; "
                          "`talft-debugger OBJECT --source SOURCE` names the source of an object")

    def do_line(self, words):
        self.lines_known()
        self.forward(number(words, 1, 1), True)

    def do_reverse_line(self, words):
        self.lines_known()
        self.moved(stepping.back, self.session, number(words, 1, 1))

    def do_continue(self, words):
        self.halted(self.moved(self.session.go))

    def do_reverse_continue(self, words):
        self.halted(self.moved(self.session.go_back))

    def do_finish(self, words):
        self.halted(self.moved(self.session.finish))

    def do_until(self, words):
        if words:
            parts = self.session.target.find_parts(" ".join(words))
        else:
            parts = [one for one in [self.session.following()] if one]
        if not parts:
            raise Refused("no instruction follows in the text: give a place, as in `until 1:0`")
        stop = self.moved(self.session.until, parts)
        self.halted(stop)
        if stop.reason in ("done", "detected"):
            self.say(f"the run ended at {stop.position} without reaching {' or '.join(one.place() for one in parts)}")

    def told_breaks(self):
        """Names the breakpoints that halt here, and forgets temporary ones."""
        for at, one in self.session.halting().items():
            self.say(f"breakpoint {at}" + (f"  {one.told()}" if one.told() else ""))
            if one.temporary:
                self.session.delete(at)

    def halted(self, stop):
        """Prints why a run stopped."""
        if stop.reason == "breakpoint":
            self.told_breaks()
        elif stop.reason == "watch":
            self.say(f"watch {stop.what[0]}: {stop.what[2]} -> {stop.what[3]}")
        elif stop.reason == "start":
            self.say("this is the start")
        elif stop.reason == "interrupted":
            self.say(f"interrupted: the run stays at {stop.position}; `continue` resumes it")
        elif stop.reason == "limit":
            self.say(f"nothing halts the run in {MOST_TO_END:,} more steps: the same command goes on")
        elif stop.reason == "loop":
            self.say(self.looping(stop.what))

    def looping(self, turn):
        """What is said about a run that repeats itself."""
        return (f"the run is in an endless loop: every {turn} steps all is as before, and nothing is stored "
                "(a trap is such a loop: `talft-ending` names it)")

    def do_goto(self, words):
        if not words:
            raise Refused("missing position: write it as in `goto 12`")
        try:
            wanted = number(words)
        except Refused:
            self.refuse_place(" ".join(words))
            raise
        self.moved(self.session.go_to, wanted)
        if self.session.position < wanted:
            self.say(f"the run ended at {self.session.position}, before {wanted}")

    def refuse_place(self, text):
        """Suggests the command that goes to a place, if the text is one."""
        try:
            self.session.target.find_parts(text)
        except Refused:
            return
        raise Refused(f"{quoted(text)} is a place, and `goto` takes a position: `until {text[:60]}` goes to a place or "
                      "a line")

    def do_run(self, words):
        was_at_start = self.session.position == 0
        self.moved(self.session.go_to, 0)
        if was_at_start:
            self.say("the run is at its start: `continue` runs it")

    def do_end(self, words):
        self.moved(self.session.go_to, self.session.position + MOST_TO_END)
        if self.session.state().status == "running":
            turn = self.session.turn(self.session.position)
            self.say(self.looping(turn) if turn else
                     f"the run has not ended after {MOST_TO_END:,} more steps: `end` continues")

    def do_undo(self, words):
        self.moved(self.session.undo)

    # BREAKPOINTS, WATCHES, STRIKES

    def do_break(self, words, temporary=False):
        if not words:
            self.breaks()
            return
        at, one = self.session.add_break(" ".join(words), temporary)
        self.say(f"breakpoint {at}: {one.instruction.short()}  ({views.place_and_line(self.session, one.instruction)})"
                 + (f"  {one.told()}" if one.told() else ""))
        if named := self.session.target.line_named(breaks.place_in(" ".join(words))):
            line, found = named[0], one.instruction.source_line if named[1] else one.instruction.line
            if line != found:
                self.say(f"no instruction is on line {line}: this is the next one, on line {found}")

    def do_tbreak(self, words):
        if not words:
            raise Refused("missing place: write it as in `tbreak 1:0`")
        self.do_break(words, True)

    def do_watch(self, words):
        name = one_word(words, "missing cell, register or variable: write it as in `watch r1`")
        at = self.session.add_watch(name)
        self.say(f"watch {at}: {self.told_word(name)}")

    def do_delete(self, words):
        for at in [number([text]) for text in words] or list(self.session.breaks) + list(self.session.watches):
            self.session.delete(at)

    def do_display(self, words):
        for name in words:
            self.told_word(name)
        self.displayed += [name for name in words if name not in self.displayed]
        if not self.is_shown or not words:
            self.say(*self.display_lines() or ["nothing is displayed: `display r1` adds a word"])

    def do_undisplay(self, words):
        for name in words:
            if name not in self.displayed:
                raise Refused(f"{quoted(name)} is not displayed")
        self.displayed = [name for name in self.displayed if words and name not in words]

    def do_zap(self, words):
        no_sign("zap", words)
        if len(words) < 2:
            raise Refused("missing site or word: write it as in `zap r1 6`")
        no_more(words[2:])
        self.struck(words[0], self.session.zap(words[0], word_of(words[1])))

    def do_flip(self, words):
        no_sign("flip", words)
        if len(words) < 2:
            raise Refused("missing site or bit: write it as in `flip r1 0`")
        no_more(words[2:])
        self.struck(words[0], self.session.flip(words[0], number(words[1:])))

    def struck(self, site, old):
        """Prints what a strike did."""
        self.say(f"zapped at {self.session.position}: {site} was {old}, is {self.session.word(site)}")

    def do_plan(self, words):
        text = one_word(words, "missing fault: write it as in `plan 4:r1:6`")
        position = self.session.position
        self.session.plan(text)
        self.say(f"planned: {text}")
        if self.session.position != position or int(text.split(":")[0]) <= position:
            self.at()

    def do_unplan(self, words):
        no_more(words[1:])
        self.moved(self.session.unplan, *words)

    # FILES AND THE REST

    def do_explain(self, words):
        for line in explaining.explain(self.session):
            self.say(self.paint("differs" if "DIFFER" in line else None, line))

    def do_source(self, words):
        path = one_word(words, "missing file: write it as in `source script`")
        if self.depth >= MOST_NESTED:
            raise Refused(f"{named(path)}: scripts nest more than {MOST_NESTED} deep")
        try:
            with open(path, encoding="utf-8", errors="replace") as file:
                lines = file.read().splitlines()
        except OSError as error:
            raise Refused(f"{named(path)}: {reason(error)}") from error
        self.depth += 1
        try:
            for at, line in enumerate(lines, 1):
                try:
                    self.do(line)
                except Refused as error:
                    raise Refused(f"{named(path)}:{at}: {error}; the script ends here") from error
        finally:
            self.depth -= 1

    def do_record(self, words):
        path = one_word(words, "missing file: write it as in `record script`")
        self.session.journal.record(path, self.sure)
        self.say(f"recording to {named(path)}; this runs it again: {self.session.target.command_of(path)}")

    def do_quit(self, words):
        raise Quit
