"""The record of a session: a script of `talft debug` that leads to the same place with the same answers."""
import os

from common import Refused
from debugging.sessions import made_by, path
from messages import named, reason

# How far one script can go back (docs/COMMANDS.md).
MOST_BACK = 4_096


class Journal:
    """The lines so far, and their file."""

    def __init__(self):
        self.lines, self.low, self.file = [], 0, None

    def record(self, path, sure):
        """Keeps the lines in a file; an existing one is overwritten only if `sure` says so."""
        path = os.path.abspath(path)
        if os.path.isdir(path):
            raise Refused(f"{named(path)}: is a folder; give a file")
        if os.path.lexists(path) and path != self.file and not sure(f"{named(path)} exists: overwrite it? (y or n) "):
            raise Refused(f"{named(path)}: exists already, and is kept; give another file")
        try:
            with open(path, "w", encoding="ascii"):
                self.file = path
        except OSError as error:
            raise Refused(f"{named(path)}: cannot be written: {reason(error)}") from error
        self.put()

    def put(self, *lines):
        """Adds lines."""
        self.lines += lines
        if not self.file:
            return
        try:
            with open(self.file, "w", encoding="ascii") as out:
                out.write("".join(line + "\n" for line in self.lines))
        except OSError as error:
            path, self.file = self.file, None
            raise Refused(f"{named(path)}: {reason(error)}; recording ends") from error

    def move(self, old, new, strikes):
        """Records a move. A position too far back is reached from the start, which replaces all earlier lines."""
        if new > old:
            self.low = max(self.low, new - MOST_BACK)
            # Strikes made here already have their lines.
            self.put(*path([s for s in strikes if s.step > old], old, new))
        elif self.low <= new < old:
            self.put(f"back {old - new}")
        elif new < old:
            self.again(new, strikes)

    def again(self, position, strikes):
        """Replaces all earlier lines with the path from the start to a position."""
        self.lines, self.low = [], max(0, position - MOST_BACK)
        self.put(*path(made_by(strikes, position), 0, position))
