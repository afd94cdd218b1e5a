"""The full screen of the debugger: what its keys do."""
import curses
import os
import re
import sys
import textwrap

from common import Refused
from debugging import explaining, runs, stepping, views
from debugging.commands import MOST_TO_END, Commands, Quit
from debugging.help import AGAIN
from debugging.panes import HALVES, LEAST, Panes, is_too_small
from debugging.sessions import Interrupted
from messages import quoted

HELP = ["n p        one machine step forward, back (arrows right and left, too)",
        "N P        ten machine steps",
        "i I        one instruction forward, back (two steps: its fetch, its execution)",
        "l L        one line of the source; one instruction where no source is known",
        "c r        run forward, or back, to a breakpoint or a change",
        "o          out of this block",
        "up down    choose an instruction; b sets or forgets a breakpoint there",
        "w          watch a cell or a register",
        "z f        strike: a site and a word, or a bit to flip", "u          undo",
        "e          why was it detected?", "d          what differs from the run without the strikes",
        "g          go to a position; Home and End go to the start and to the stop",
        "a          all registers, or those that were set",
        ":          any command of the prompt; `:display r1` keeps a word on screen", "q          end", "",
        "=> the next instruction; G> B> the counters, where they differ; * a breakpoint",
        "timeline: o here, ! a strike, @ both; it is as long as the run without strikes",
        *(f"registers: {text}" for text in views.MARKS.values())]
ENDS = {"start": "this is the start", "done": "the machine is done", "detected": "detected: e says why",
        "breakpoint": "a breakpoint", "loop": "the run is in an endless loop: `:end` says more",
        "interrupted": "interrupted: the run stays where it is"}
# Commands whose answers fit on one line, as the screen shows the rest.
BRIEF = AGAIN | {"until", "finish", "goto", "run", "end", "undo", "zap", "flip", "plan", "unplan", "watch"}
COLOURS = (("green", "COLOR_GREEN"), ("blue", "COLOR_BLUE"), ("differs", "COLOR_RED"), ("changed", "COLOR_YELLOW"),
           ("break", "COLOR_RED"))
# A blue that can be read on black, where a terminal has more than the eight old colours.
BRIGHT_BLUE = 12


class Screen(Panes):
    """What keys do; Panes draws the screen."""

    def __init__(self, window, session):
        self.window, self.session = window, session
        self.lines, self.message, self.cursor, self.every, self.before = [], "", None, False, None
        self.commands = Commands(session, views.plain, self.lines.append, self.is_sure, True)
        self.halves = HALVES
        # Marks a text that is cut.
        self.cut = "…" if window.encoding.lower() in ("utf-8", "utf8") else ">"
        end = runs.place_at(session.timeline, 1_000_000, ())
        self.length, self.ends = end.position, end.status != "running"
        target = session.target
        self.message = f"{views.size_of(target)}; ? lists the keys, q quits"
        self.styles()

    def styles(self):
        """Attributes by name; colours if the terminal has them and NO_COLOR is not set."""
        bold = curses.A_BOLD
        self.style = {"here": curses.A_REVERSE, "title": bold, "dim": curses.A_DIM, "green": 0, "blue": 0, "green changed": bold,
                      "blue changed": bold, "differs": bold | curses.A_UNDERLINE, "changed": bold, "break": bold, None: 0}
        if not curses.has_colors() or os.environ.get("NO_COLOR"):
            return
        curses.start_color()
        curses.use_default_colors()
        for number, (name, colour) in enumerate(COLOURS, 1):
            is_bright = name == "blue" and curses.COLORS > BRIGHT_BLUE
            curses.init_pair(number, BRIGHT_BLUE if is_bright else getattr(curses, colour), -1)
            self.style[name] = curses.color_pair(number) | (bold if name in ("differs", "break") else 0)
        for name in ("green", "blue"):
            # A new word keeps its colour.
            self.style[name + " changed"] = self.style[name] | bold

    # WHAT IS TYPED

    def ask(self, prompt):
        """Reads a line typed at the bottom; None if it is cancelled."""
        typed = ""
        while True:
            self.put(self.window.getmaxyx()[0] - 2, 0, f"{prompt} {typed}_", "title")
            self.window.refresh()
            key = self.window.get_wch()
            if key in ("\n", "\r"):
                return typed
            if key == "\x1b":
                return None
            if key in (curses.KEY_BACKSPACE, "\x7f", "\b"):
                typed = typed[:-1]
            elif key == "\t":
                line = typed if prompt == ":" else prompt.split()[0] + " " + typed
                found = self.commands.complete(line)
                typed = typed[:len(typed) - len(typed.split(" ")[-1])] + os.path.commonprefix(found) if found else typed
            elif isinstance(key, str) and key.isprintable():
                typed += key

    def is_sure(self, question):
        """Asks the user."""
        return (self.ask(question) or "").strip().lower() in ("y", "yes")

    def page(self, lines):
        """Shows lines on the whole screen until a key is pressed. Long ones are wrapped."""
        width = max(20, self.window.getmaxyx()[1] - 1)
        lines = [part for line in lines for part in wrapped(line, width)]
        while lines:
            self.window.erase()
            height = max(2, self.window.getmaxyx()[0])
            for row, line in enumerate(lines[:height - 1]):
                self.put(row, 0, line, "differs" if "DIFFER" in line else None)
            lines = lines[height - 1:]
            more = f" ({len(lines)} lines more)" if lines else ""
            self.put(height - 1, 0, "press any key to continue" + more, "dim")
            self.window.refresh()
            self.window.get_wch()

    # WHAT KEYS DO

    def run(self, line):
        """Runs a command of the prompt; long answers get a page."""
        self.before, self.cursor = self.session.state(), None
        self.lines.clear()
        name = self.commands.do(line)
        if len(self.lines) > 1 and name not in BRIEF:
            self.page(self.lines)
        elif self.lines:
            self.message = "; ".join(self.lines)

    def toggle(self):
        """Sets or forgets a breakpoint at the chosen instruction."""
        session = self.session
        instruction = session.target.at(self.cursor) if self.cursor else session.current()
        if not instruction:
            raise Refused("there is no instruction here")
        there = [number for number, one in session.breaks.items() if instruction.key() in one.places]
        for number in there:
            session.delete(number)
        if not there:
            session.add_break(f"*{instruction.address}")
        self.message = f"breakpoint {'removed' if there else 'set'} at {instruction.place()}"

    def move(self, call, *words):
        """Makes a move, and says why it stopped."""
        self.before, self.cursor = self.session.state(), None
        if call in (stepping.forward, stepping.back) and len(words) == 1 and self.session.target.source is None:
            self.message = "no source lines are known: one instruction"
        old, strikes = self.session.position, self.session.strikes
        stop = call(*words)
        if told := views.strike_lines(self.session, old, strikes):
            self.message = "; ".join(told)
        if call == self.session.go_to and words[0] and self.session.state().status == "running":
            self.message = f"the run has not ended after {MOST_TO_END:,} more steps: End continues"
        if isinstance(stop, runs.Stop):
            changed = stop.reason == "watch"
            self.message = f"{stop.what[2]} -> {stop.what[3]}" if changed else ENDS.get(stop.reason, stop.reason)

    def moves(self):
        """The keys that move."""
        session = self.session
        return {"n": (session.step, 1), "N": (session.step, 10), curses.KEY_RIGHT: (session.step, 1),
                "p": (session.back, 1), curses.KEY_LEFT: (session.back, 1),
                "P": (session.back, min(10, session.position)),
                "i": (stepping.forward, session, 1, False), "I": (stepping.back, session, 1, False),
                "l": (stepping.forward, session), "L": (stepping.back, session), "c": (session.go,),
                "r": (session.go_back,), "o": (session.finish,), "u": (session.undo,),
                curses.KEY_HOME: (session.go_to, 0), curses.KEY_END: (session.go_to, session.position + MOST_TO_END)}

    def choose(self, key):
        """Moves the cursor over the instructions."""
        current = self.session.current()
        here = self.cursor or (current.address if current else 1)
        self.cursor = min(max(1, here + (1 if key == curses.KEY_DOWN else -1)), len(self.session.target.code))

    def key(self, key):
        """Handles one key."""
        typed_for = {"z": "zap SITE WORD:", "f": "flip SITE BIT:", "g": "goto POSITION:", "w": "watch WORD:"}
        shown = {"e": lambda: explaining.explain(self.session), "?": lambda: HELP, "h": lambda: HELP}
        moves = self.moves()
        if key in moves:
            self.move(*moves[key])
        elif key in (curses.KEY_UP, curses.KEY_DOWN):
            self.choose(key)
        elif key in typed_for:
            if typed := self.ask(typed_for[key]):
                self.run(typed_for[key].split()[0] + " " + typed)
        elif key in shown:
            self.page(shown[key]())
        elif key == ":":
            if typed := self.ask(":"):
                self.run(typed)
        elif key == "d":
            self.run("diff")
        elif key == "b":
            self.toggle()
        elif key == "a":
            self.every = not self.every
        elif key == "q":
            raise Quit
        else:
            self.message = f"{views.key_name(key)}: this key does nothing; ? lists the keys"

    def loop(self):
        """Draws and handles keys until the end."""
        while True:
            try:
                self.draw()
                key = self.window.get_wch()
                if key == curses.KEY_RESIZE:
                    continue
                self.message = ""
                self.key(key)
            except Refused as error:
                self.message = str(error)
            except Interrupted:
                self.message = "interrupted: the session stays where it was"
            except curses.error:
                # The window changed its size, or is too small for what was written.
                pass
            except KeyboardInterrupt:
                self.message = "q quits"
            except Quit:
                return 0


def wrapped(line, width):
    """A line in parts of this width, cut at spaces if possible; later ones are indented.

    In a line that is too long, wide gaps between columns are narrowed first."""
    start = line[:len(line) - len(line.lstrip())]
    if len(line) > width:
        line = start + re.sub(" {3,}", "  ", line.lstrip())
    indent = start + "    "
    return textwrap.wrap(line, width, subsequent_indent=indent, drop_whitespace=True, replace_whitespace=False,
                         break_on_hyphens=False) or [""]


def check_terminal():
    """Refuses a terminal that is unknown, or cannot move its cursor."""
    try:
        curses.setupterm()
        is_able = curses.tigetstr("cup") is not None
    except curses.error:
        is_able = False
    if not is_able:
        raise Refused(f"--tui: the terminal {quoted(os.environ.get('TERM', ''))} cannot show it: set TERM, or leave --tui "
                      "out")


def show(session):
    """Runs the full screen."""
    if not (sys.stdin.isatty() and sys.stdout.isatty()):
        raise Refused("--tui needs a terminal for standard input and output")
    check_terminal()
    os.environ.setdefault("ESCDELAY", "25")

    def begin(window):
        if is_too_small(window):
            height, wide = window.getmaxyx()
            raise Refused(f"--tui: the terminal has {wide} columns and {height} rows, but the screen needs at least "
                          f"{LEAST[0]} columns and {LEAST[1]} rows: enlarge it, or leave --tui out")
        try:
            curses.curs_set(0)
        except curses.error:
            # The terminal cannot hide its cursor.
            pass
        return Screen(window, session).loop()
    try:
        return curses.wrapper(begin)
    except curses.error as error:
        raise Refused(f"--tui: the terminal `{os.environ.get('TERM', '')}` cannot show it: {error}") from error
