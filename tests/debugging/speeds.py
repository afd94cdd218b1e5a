"""Times commands of a session far from its start: python3 speeds.py TURNS. Writes a table in Markdown.

The run has 44 steps for each turn of its loop. Times depend on this machine and its load."""
import os
import sys
import tempfile
import time

sys.path.insert(0, os.path.join(os.path.dirname(os.path.abspath(__file__)), os.pardir, os.pardir, "tools"))
from debugging import explaining
from debugging.person import Session
from debugging.target import Target

SOURCE = """cell out = 0;
cell early = 0;
var i; var far;
early = 1;
while (i < {turns}) {{
  i = i + 1;
}}
far = 1;
out = i;
"""


class Speeds:
    """A session, and the table of the times of its commands."""

    def __init__(self, target, steps):
        self.session, self.steps = Session(target), steps
        print("| command | position after | calls | seconds |\n|---|---|---|---|")

    def timed(self, name, call, *words):
        """Executes a command, and writes its row."""
        before, start = self.session.timeline.calls.count, time.time()
        call(*words)
        took, calls = time.time() - start, self.session.timeline.calls.count - before
        print(f"| {name} | {self.session.position} | {calls} | {took:.3f} |", flush=True)

    def moves(self):
        """Steps, near and far."""
        session = self.session
        self.timed("the first state", session.state)
        self.timed("goto half the run", session.go_to, self.steps // 2)
        there = [session.step] * 200 + [session.back] * 200
        self.timed("then 200 steps and 200 back, one by one", lambda: [call(1) for call in there])
        self.timed("5,000 back", session.back, 5_000)
        self.timed("goto the end", session.go_to, self.steps)
        self.timed("1,000 back: over the edge of what was told", session.back, 1_000)

    def runs(self):
        """Runs to breakpoints."""
        session = self.session
        session.go_to(0)
        session.add_break("9")
        self.timed("continue to the line after the loop", session.go)
        session.breaks.clear()
        session.add_break("4")
        self.timed("reverse-continue to a line at the start", session.go_back)
        session.breaks.clear()
        session.add_break("6 if i == 5")
        self.timed("continue to a condition that holds soon", session.go)
        session.breaks.clear()

    def watches(self):
        """Runs to where words change."""
        session = self.session
        session.go_to(0)
        session.add_watch("out")
        self.timed("watch a cell that is stored at the end", session.go)
        session.watches.clear()
        session.add_watch("early")
        self.timed("watch a cell back, stored at the start", session.go_back)
        session.watches.clear()
        session.go_to(30)
        session.add_watch("r1")
        self.timed("watch a register that is written at the end", session.go)
        self.timed("watch it back", session.go_back)
        session.watches.clear()

    def explained(self):
        """A strike in the middle."""
        session = self.session
        session.go_to(self.steps // 2)
        session.zap("r33", 7)
        session.step(100)
        self.timed("explain a strike in the middle, 100 steps later", explaining.explain, session)


def main(turns):
    with tempfile.TemporaryDirectory() as folder:
        path = os.path.join(folder, "far.src")
        with open(path, "w", encoding="ascii") as out:
            out.write(SOURCE.format(turns=turns))
        target = Target(path)
        speeds = Speeds(target, int(turns) * 44)
        for part in (speeds.moves, speeds.runs, speeds.watches, speeds.explained):
            part()
        target.close()


if __name__ == "__main__":
    main(sys.argv[1])
