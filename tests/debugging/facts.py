"""Compares what the tools know about the machine with the program: python3 facts.py SEED RUNS STEPS PROGRAM.. .

Each run goes step by step, with random strikes. For each step, debugging/machine.py must say correctly whether it
fetches, which registers it reads and writes, whether it changes d, what it compares, and whether it is detected. The
last line is `N steps: M wrong`."""
import os
import random
import sys

sys.path.insert(0, os.path.join(os.path.dirname(os.path.abspath(__file__)), os.pardir, os.pardir, "tools"))
from common import SITES, Refused
from debugging import machine
from debugging.person import Session
from debugging.sessions import Strike
from debugging.target import Target

WORDS = [0, 1, 2, 3, 7, 9, 1_048_576, 1_048_577, 2 ** 63, 2 ** 64 - 1]


class Facts:
    """Counts steps and mistakes."""

    def __init__(self):
        self.steps, self.wrong, self.detected = 0, 0, {}

    def check(self, session, name, wanted, got):
        """Counts and prints a mistake."""
        if wanted != got:
            self.wrong += 1
            print(f"FAILED {name} at {session.position} after {session.strikes}: wanted {wanted}, got {got}")

    def step(self, session):
        """Takes a step, and compares it with what the module says about it."""
        before, fetched = session.state(), session.fetched(session.position)
        told = None if fetched is None and not machine.is_fetch(before.position) else machine.detection(before, fetched)
        session.step(1)
        after = session.state()
        self.steps += 1
        self.check(session, "whether it is detected", after.status == "detected", told is not None)
        if not told:
            self.check(session, "what it compares is equal", [], [
                row for row in machine.compared(before, fetched) if not row.same])
        if told:
            self.detected[told.sentence] = self.detected.get(told.sentence, 0) + 1
        registers = {name for name in machine.REGISTERS if before.words[name] != after.words[name]}
        may = set()
        if not machine.is_fetch(before.position) and fetched:
            may = {machine.written_register(fetched.words)} | ({"d"} if machine.may_write_d(fetched.words) else set())
        self.check(session, "the registers that change", set(), registers - may)
        if machine.is_fetch(before.position) or after.status != "running":
            same = all(getattr(before, part) == getattr(after, part) for part in ("pcg", "pcb", "queue", "cells"))
            self.check(session, "what a fetch, a stop and a detection leave alone", True, same)
        changed = {name for name in after.cells if before.cells[name] != after.cells[name]}
        stored = {line.split(" ")[0] for line in after.commits.splitlines()}
        self.check(session, "only a commit changes a cell", set(), changed - stored)

    def reads(self, session, chance):
        """Checks that a strike on a register that the next step does not read changes no other word."""
        position, fetched = session.position, session.fetched(session.position)
        if not fetched:
            return
        site = chance.choice([name for name in SITES[:64] if name not in machine.read_registers(fetched.words)])
        strikes = session.strikes + (Strike(position, site, chance.choice(WORDS)),)
        words = [session.timeline.state_at(position + 1, made).all_words() for made in (session.strikes, strikes)]
        self.check(session, "which registers it reads", {},
                   {name: word for name, word in words[0].items() if name != site and words[1].get(name) != word})

    def run(self, target, chance, steps):
        """Makes a run. It strikes sites that the program uses, as most others have no effect."""
        session = Session(target)
        used = {word for instruction in target.code for word in instruction.words if word in SITES}
        sites = sorted(used) + ["d", "pcg", "pcb", "qa0", "qv0"]
        session.go_to(chance.randrange(40))
        for _ in range(steps):
            if session.state().status != "running":
                return
            if chance.random() < 0.05:
                try:
                    session.zap(chance.choice(sites), chance.choice(WORDS))
                except Refused:
                    # The queue has no such entry.
                    pass
            if chance.random() < 0.1:
                self.reads(session, chance)
            self.step(session)


def main(seed, runs, steps, *programs):
    facts, chance = Facts(), random.Random(int(seed))
    for program in programs:
        target = Target(program)
        for _ in range(int(runs)):
            facts.run(target, chance, int(steps))
        target.close()
    for sentence, count in sorted(facts.detected.items()):
        print(f"  {count:>5} {sentence}")
    print(f"{facts.steps} steps: {facts.wrong} wrong")
    return 1 if facts.wrong else 0


if __name__ == "__main__":
    sys.exit(main(*sys.argv[1:]))
