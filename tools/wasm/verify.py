"""Compares the stores of an object's run without a fault with those of the module that it was translated from."""
import collections
import re

from common import Refused
from debugging.explaining import counted
from debugging.machine import REGISTERS
from debugging.sessions import State, ask, path
from wasm.decoder import Invalid, Module
from wasm.interpreter import Interpreter
from wasm.narrower import Narrower
from wasm.traps import FULL, NARROWER

WRONG = "the translation is wrong; report it"
TRAP = re.compile(r"# trap (\d+): (function .*: offset 0x[0-9a-f]+: .*)")
# A loop in which a run stays has at most this many instructions, of two steps each: a trap has four or fewer.
MOST_STAYING = 16
# How a run ended: done, detected, running or staying; after how many steps; in which block; the lines that it wrote.
Ending = collections.namedtuple("Ending", "how steps block lines")


def traps_of(text):
    """The traps named in the comments of a translated text, by block number."""
    return {int(match[1]): match[2] for match in map(TRAP.fullmatch, text.splitlines()) if match}


def ending(object_file, most, strikes=(), wild=None):
    """Runs the object for at most this many steps. Its run stays where it is if a whole state recurs within the next
    steps, in one block and without an output."""
    script, state = path(strikes, 0, most), [*(f"reg {name}" for name in REGISTERS), "queue", "where"]
    answers = ask(object_file, [*script, *state, *(["step 2", *state] * MOST_STAYING)], wild)
    outputs, made = answers.path(script)
    if not all(made):
        raise Refused("nothing was struck: the run had ended, or the queue has no such entry at that step")
    first = State(answers, (), 0, None)
    how = first.status
    if how == "running" and first.block is not None and recurs(answers, first):
        how = "staying"
    return Ending(how, first.position, first.block, outputs.splitlines())


def in_place(object_file, steps, wild=None):
    """What to say of a run without a fault that has not ended after so many steps, if it loops in place; else None."""
    if ending(object_file, steps, wild=wild).how != "staying":
        return None
    return f"is still running after {steps} steps, and for ever: it loops in place, as after a trap; `talft-ending` says where"


def recurs(answers, first):
    """Whether one of the next states is an earlier one."""
    seen = [first.all_words()]
    for _ in range(MOST_STAYING):
        committed, _, _ = answers.step()
        state = State(answers, (), 0, None)
        if committed or state.status != "running" or state.block != first.block:
            return False
        if state.all_words() in seen:
            return True
        seen.append(state.all_words())
    return False


def told(run, text):
    """How a run ended, in words, with the place of a trap if the text has it."""
    if run.how != "staying":
        return f"{run.how} after {run.steps} steps"
    traps = traps_of(text)
    if run.block in traps:
        return f"trapped within {run.steps} steps: {traps[run.block]}"
    known = "" if text else ", as a trap does"
    return f"running after {run.steps} steps: block {run.block} jumps to itself{known}"


class Expected:
    """What the module stores in the interpreter: each word of 8 bytes with the name of its cell. `trap`: where the object
    has trapped, and why, or None."""

    def __init__(self, data, entry, translation, most, most_stores, trap):
        names = {at: name for name, at in translation.cells if at is not None}
        module = Module(data)
        self.program = Interpreter(module, most, most_stores) if trap is None or trap[1] not in NARROWER else \
            Narrower(module, most, most_stores, translation.limits, trap)
        self.how, self.what, results = self.program.run(entry)
        # A word without a cell is outside the memory that the program uses.
        self.stores = [(names.get(at, f"address {at:#x}"), word) for at, word in self.program.stores]
        if translation.result and self.how == "done":
            self.stores.append((translation.result, results[0]))

    def is_trapped(self, trap):
        """Whether the module trapped at this offset in this way. A full stack is noticed where the function begins."""
        return self.how == "trapped" and self.what == trap[1] and (self.what == FULL or self.program.place[1].at == trap[0])


def verify(data, entry, translation, run):
    """A line that says what was verified of a run. A run that differs from the module's is refused."""
    kept = {name for name, at in translation.cells if at is not None} | {translation.result}
    stores = [(name, int(word)) for name, word in (line.split(" ") for line in run.lines) if name in kept]
    trap = translation.traps[run.block][1:] if run.how == "staying" and run.block in translation.traps else None
    try:
        module = Expected(data, entry, translation, 4 * run.steps + 100_000,
                          None if run.how == "done" else len(stores) + 1, trap)
    except Invalid as invalid:
        return f"not verified: the interpreter cannot run the module: {invalid}"
    for number, (mine, wanted) in enumerate(zip(stores, module.stores)):
        if mine != wanted:
            raise Refused(f"store {number} is {mine[0]} {mine[1]} in the object but {wanted[0]} {wanted[1]} in the module: "
                          f"{WRONG}")
    how = agreement(run, module, len(stores), trap)
    if how is None:
        raise Refused(f"the object's run is {run.how if trap is None else 'trapped'} after {len(stores)} stores, but the "
                      f"module's is {module.how} after {len(module.stores)}: {WRONG}")
    verb = "matches" if len(stores) == 1 else "match"
    return (f"{how}: {counted(len(stores), 'store')} in {counted(run.steps, 'step')} {verb} the module's, which ran "
            f"{counted(module.program.count, 'instruction')}")


def agreement(run, module, count, trap):
    """The verdict on two runs with the same stores, as far as both go; None if they differ."""
    more, fewer = len(module.stores) > count, len(module.stores) < count
    is_cut = module.how == "cut" and not more
    if run.how == "done":
        if is_cut:
            return "not fully verified: the module runs longer than the interpreter's limit"
        return "verified" if module.how == "done" and not more and not fewer else None
    if fewer:
        return None
    if trap is not None:
        if is_cut:
            return "not fully verified: the object has trapped, but the module runs longer than the interpreter's limit"
        return "verified up to the trap" if not more and module.is_trapped(trap) else None
    if run.how == "staying":
        return "verified as far as it stores" if is_cut else None
    if not more and module.how != "cut":
        return f"not fully verified: the module's run is {module.how}, but the object's was cut"
    return "verified as far as it ran"
