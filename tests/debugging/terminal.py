"""A pseudo-terminal with as much of xterm as curses uses: what a full screen shows, with its colours."""
import collections
import fcntl
import os
import pty
import re
import select
import signal
import struct
import sys
import termios
import time

# A cell's colour, as in the sequences (39 is the default), and its other attributes.
Style = collections.namedtuple("Style", "ink bold dim underline reverse", defaults=(39, False, False, False, False))
PLAIN = Style()
ON = {1: "bold", 2: "dim", 4: "underline", 7: "reverse"}
OFF = {22: ("bold", "dim"), 24: ("underline",), 27: ("reverse",)}
PART = re.compile(rb"\x1b\[([?>]?)([\d;]*)([@-~])|\x1b([()][0-9A-Za-z]|[=>78MNOc])|\x1b\][^\x07\x1b]*(?:\x07|\x1b\\)"
                  rb"|([\r\n\b\t\x0f\x07])|([^\x1b\r\n\b\t\x0f\x07]+)")


class Terminal:
    """Rows of (character, style)."""

    def __init__(self, wide, high):
        self.wide, self.high, self.row, self.column, self.style = wide, high, 0, 0, PLAIN
        self.cells = [self.blank() for _ in range(high)]
        self.rest, self.last = b"", " "

    def blank(self):
        return [(" ", PLAIN)] * self.wide

    def feed(self, data):
        """Takes what the program writes. A sequence may be cut in the middle: it waits for its end."""
        data, at = self.rest + data, 0
        while match := PART.match(data, at):
            at = match.end()
            if match[3]:
                self.control(match[1], [int(part or 0) for part in match[2].split(b";")], match[3])
            elif match[5]:
                self.move(match[5])
            elif match[6]:
                self.write(match[6].decode("utf-8", "replace"))
        self.rest = data[at:]

    def move(self, byte):
        """A character that moves the cursor."""
        if byte == b"\r":
            self.column = 0
        elif byte == b"\n":
            self.row = min(self.row + 1, self.high - 1)
        elif byte == b"\b":
            self.column = max(0, self.column - 1)

    def write(self, text):
        """Text at the cursor."""
        for character in text:
            if self.column == self.wide:
                self.row, self.column = min(self.row + 1, self.high - 1), 0
            self.cells[self.row][self.column] = (character, self.style)
            self.column, self.last = self.column + 1, character

    def control(self, mark, numbers, final):
        """A control sequence."""
        first = numbers[0] or 1
        if mark:
            return
        if final in b"Hf":
            self.row, self.column = first - 1, (numbers[1] or 1) - 1 if len(numbers) > 1 else 0
        elif final == b"d":
            self.row = first - 1
        elif final == b"G":
            self.column = first - 1
        elif final in b"ABCD":
            down, right = {b"A": (-1, 0), b"B": (1, 0), b"C": (0, 1), b"D": (0, -1)}[final]
            self.row, self.column = self.row + down * first, self.column + right * first
        elif final == b"b":
            self.write(self.last * first)
        elif final in b"XP@KJ":
            self.edit(self.cells[self.row], final, first, numbers[0])
        elif final == b"m":
            for number in numbers:
                self.attribute(number)
        elif final not in b"rhlt":
            sys.exit(f"terminal.py: unknown sequence {numbers} {final}")

    def edit(self, row, final, count, which):
        """Erases, deletes or inserts cells."""
        at, blank = self.column, [(" ", PLAIN)]
        if final == b"X":
            row[at:at + count] = blank * min(count, self.wide - at)
        elif final == b"P":
            row[at:] = row[at + count:] + blank * min(count, self.wide - at)
        elif final == b"@":
            row[at:] = (blank * count + row[at:])[:self.wide - at]
        elif final == b"K":
            start, end = {0: (at, self.wide), 1: (0, at + 1), 2: (0, self.wide)}[which]
            row[start:end] = blank * (end - start)
        else:
            row[at:] = blank * (self.wide - at)
            for below in range(self.row + 1 if which == 0 else 0, self.high):
                self.cells[below] = self.blank()

    def attribute(self, number):
        """Changes the style of what follows."""
        if number == 0:
            self.style = PLAIN
        elif number in ON:
            self.style = self.style._replace(**{ON[number]: True})
        elif number in OFF:
            self.style = self.style._replace(**dict.fromkeys(OFF[number], False))
        elif number == 39 or 30 <= number <= 37 or 90 <= number <= 97:
            self.style = self.style._replace(ink=number)

    def lines(self):
        """The rows as text."""
        return ["".join(character for character, _ in row) for row in self.cells]

    def ink_of(self, text):
        """The colours of the first place where this text stands."""
        for line, row in zip(self.lines(), self.cells):
            if (at := line.find(text)) >= 0:
                return {style.ink for _, style in row[at:at + len(text)]}
        return set()


def shown(words, wide, high):
    """The debugger's screen once the key End was typed and the run is detected."""
    child, master = pty.fork()
    if child == 0:
        fcntl.ioctl(0, termios.TIOCSWINSZ, struct.pack("HHHH", high, wide, 0, 0))
        os.environ.update(TERM="xterm-256color", LC_ALL="C.UTF-8")
        os.environ.pop("NO_COLOR", None)
        os.execv(words[0], words)
    terminal, end, quiet, has_typed = Terminal(wide, high), time.monotonic() + 60, 0, False
    try:
        while time.monotonic() < end:
            if select.select([master], [], [], 0.5)[0]:
                terminal.feed(os.read(master, 1 << 16))
                quiet = 0
                continue
            quiet += 1
            if not has_typed and quiet > 1 and any("q quit" in line for line in terminal.lines()):
                os.write(master, b"\x1bOF")
                has_typed, quiet = True, 0
            elif quiet > 1 and any(" detected " in line for line in terminal.lines()):
                break
    finally:
        os.kill(child, signal.SIGKILL)
        os.waitpid(child, 0)
        os.close(master)
    return terminal
