"""Random walks of a session: python3 walks.py PROGRAM [SEED [COMMANDS [WALKS]]]. Ends with `N walks: M failed`.

After each walk the program runs the recording as a plain script, which must lead to the same state. Each run to a
breakpoint or a watched word, forward or back, must stop where a search of all states says."""
import os
import random
import sys

sys.path.insert(0, os.path.join(os.path.dirname(os.path.abspath(__file__)), os.pardir, os.pardir, "tools"))
from common import SITES, Refused
from debugging import stepping
from debugging.machine import REGISTERS
from debugging.person import Session
from debugging.sessions import path
from debugging.target import Target

# How many steps are searched, and how the refusals that a walk may meet begin.
SEARCHED = 1_100
EXPECTED = ("nothing there", "nothing to undo", "cannot go ", "`qa", "`qv")
# Setting something a second time is refused, too.
AGAIN = " already"
COMMANDS = ["step", "step", "back", "goto", "zap", "flip", "undo", "go", "go", "go back", "break", "watch", "clear",
            "plan", "next", "next back", "line", "line back"]
WORDS = [0, 1, 7, 1_048_576, 2 ** 64 - 1]


class Walk:
    """One walk, with its random choices."""

    def __init__(self, target, seed):
        self.target, self.seed, self.chance, self.failed = target, seed, random.Random(seed), 0
        self.session, self.names = Session(target), target.listing.cells[:4]

    def check(self, name, wanted, got):
        """Counts and prints a difference."""
        if wanted != got:
            self.failed += 1
            print(f"FAILED {name}, seed {self.seed}: wanted {wanted}, got {got}")

    def all_states(self):
        """(where, words) of each position, by one plain script of steps."""
        session, lines = self.session, []
        leads = [path(session.strikes, 0, 0)] + [path(session.strikes, at - 1, at) for at in range(1, SEARCHED + 1)]
        for lead in leads:
            lines += lead + [f"reg {name}" for name in REGISTERS] + [f"cell {name}" for name in self.names] + ["where"]
        answers, found = session.timeline.calls.ask(lines), []
        for at, lead in enumerate(leads):
            answers.skip(lead)
            words = {name: answers.line() for name in REGISTERS + self.names}
            where = answers.where()
            if where.position != at:
                break
            found.append((where, words))
        return found

    def stays(self, where, words):
        """Whether a run stays at a state because of a breakpoint."""
        if where.position % 2 or where.status != "running":
            return False
        for one in self.session.breaks.values():
            if (where.block, where.index) in one.places:
                asked = one.condition.questions() if one.condition else []
                if not one.condition or one.condition.holds({line: words[line.split(" ")[1]] for line in asked}):
                    return True
        return False

    def searched(self, states, back):
        """Where a run from here has to stop, by a search of all states."""
        here, watched = self.session.position, [site for _, site in self.session.watched()]

        def changes(old, new):
            return any(old[1][name] != new[1][name] for name in watched)
        if not back:
            for old, new in zip(states[here:], states[here + 1:]):
                if self.stays(*new) or changes(old, new) or new[0].status != "running":
                    return new[0].position
            return states[-1][0].position
        for at in range(here - 1, -1, -1):
            if self.stays(*states[at]) or changes(states[at], states[at + 1]):
                return at
        return 0

    def run(self, back):
        """Makes a run, and compares its stop with the search."""
        session, states = self.session, self.all_states()
        if session.position >= len(states):
            return
        wanted, there = self.searched(states, back), session.position
        session.go_back() if back else session.go()
        if not back and wanted == SEARCHED:
            # The search ends here, but the run need not.
            wanted = max(wanted, session.position)
        self.check(f"a run from {there}", wanted, session.position)

    def do(self, what):
        """Executes a random command."""
        session, chance = self.session, self.chance
        if what == "step":
            session.step(chance.choice([0, 1, 1, 2, 7, 60, 300]))
        elif what == "back":
            session.back(chance.choice([0, 1, 2, 9, 80]))
        elif what == "goto":
            session.go_to(chance.randrange(1000))
        elif what == "zap":
            session.zap(chance.choice(SITES), chance.choice(WORDS))
        elif what == "flip":
            session.flip(chance.choice(SITES[:4] + SITES[32:36]), chance.randrange(64))
        elif what == "plan":
            session.plan(f"{chance.randrange(400)}:{chance.choice(SITES)}:{chance.randrange(9)}")
        elif what == "break":
            condition = chance.choice(["", "", " if r0 < 5", " if r1 != r33 and d == 0"])
            session.add_break(f"*{chance.choice(self.target.code).address}{condition}")
        elif what == "watch":
            session.add_watch(chance.choice(self.names + ["r0", "r33", "d"]))
        elif what == "clear":
            session.breaks.clear()
            session.watches.clear()
            session.strikes = tuple(s for s in session.strikes if not s.planned or s.step <= session.position)
        elif what in ("go", "go back"):
            self.run(what == "go back")
        else:
            {"undo": session.undo, "next": lambda: stepping.forward(session, 1, False),
             "next back": lambda: stepping.back(session, 1, False), "line": lambda: stepping.forward(session),
             "line back": lambda: stepping.back(session)}[what]()

    def walk(self, count):
        """Executes this many commands, and then tests the recording."""
        for _ in range(count):
            what = self.chance.choice(COMMANDS)
            try:
                self.do(what)
            except Refused as error:
                if not str(error).startswith(EXPECTED) and AGAIN not in str(error):
                    self.check(what, None, str(error))
        self.record()

    def record(self):
        """Tests that the recording is a script that leads to the same state."""
        session = self.session
        said = session.timeline.calls.ask(session.journal.lines + session.timeline.questions.splitlines()).text.splitlines()
        state = session.state()
        wanted = [f"{name} {colour} {word}" for name, (colour, word) in state.words.items()]
        wanted += [f"{name} {word}" for name, word in state.cells.items()]
        wanted += [f"{address} {value}" for address, value in state.queue] or ["empty"]
        self.check("the record", wanted, said[-len(wanted) - 1:-1])
        where = f"at {state.position} {state.status} pcg {state.pcg} pcb {state.pcb}"
        self.check("its place", where, " ".join(said[-1].split()[:7]))
        refused = [line for line in said if line in ("bad command", "no history", "no place", "too many breaks")]
        self.check("its lines", [], refused)


def main(program, seed="1", count="40", walks="10"):
    target, failed = Target(program), 0
    for number in range(int(walks)):
        walk = Walk(target, int(seed) + number)
        walk.walk(int(count))
        failed += walk.failed
    target.close()
    print(f"{walks} walks: {failed} failed")
    return 1 if failed else 0


if __name__ == "__main__":
    sys.exit(main(*sys.argv[1:]))
