"""Why a run was detected, and the path of a fault: what each step changed compared with the run without the fault.

The words come from the program, for the run with its strikes and for the run without. debugging/machine.py says what
each instruction compares."""
from debugging.machine import compared, detection, is_fetch, own_colour, read_registers

# How many steps after the first strike are followed, and how many lines of a path are printed.
MOST_STEPS, MOST_LINES = 1_500, 24
# How many instructions that mix the colours are named.
MOST_CAUSES = 4
# How many steps longer the run without the strikes may take for its outputs.
MOST_LATER = 1_000_000


def counted(count, noun):
    """A count with its noun."""
    return f"{count} {noun}{'' if count == 1 else 's'}"


def differences(state, other):
    """(name, word, other word) of each word that differs; None for a missing one."""
    left, right = state.all_words(other), other.all_words(state)
    return [(name, left.get(name), right.get(name)) for name in dict.fromkeys([*left, *right])
            if left.get(name) != right.get(name)]


def reason(session):
    """For a machine that has stopped itself: the instruction, or None for a fetch, and why."""
    before = session.state_at(session.state().position - 1)
    instruction = session.fetched(before.position)
    told = detection(before, instruction, session.target.named, session.target.named_target)
    return instruction, told


def table(rows):
    """What was compared, as lines."""
    if not rows:
        return []
    words = [row for row in rows if row.what]
    widths = [max([len(getattr(row, part)) for row in words] or [0]) for part in ("what", "left", "right")]
    lines = []
    for row in rows:
        told = f"{row.what:<{widths[0]}}  {row.left:<{widths[1]}}  {row.right:<{widths[2]}}  " if row.what else row.left
        lines.append(f"  {told}" + ("equal" if row.same else "DIFFERENT") * bool(row.what))
    return lines


class Change:
    """A position on the path: what changed there, by which instruction or strikes, and what is correct again.

    `left` is how many words still differ, `passed` has the instruction's comparisons that differ from those without the
    strike, and `meets` has the colours of the words that it read."""

    def __init__(self, position, instruction, strikes, new, gone, left):
        self.position, self.instruction, self.strikes, self.new, self.gone = position, instruction, strikes, new, gone
        self.left, self.passed, self.meets = left, [], []

    def lines(self, target):
        """The change as lines, with one for each comparison that passed."""
        who = f"{self.instruction.words[0]}" if self.instruction else "the fetch"
        return [self.told(target)] + [f"    {who} compared {row.left} with {row.right}: equal, so it passed" if row.what
                                      else f"    {who} passed: {row.left}" for row in self.passed]

    def told(self, target):
        """The change as a line."""
        words = {name: word for name, word, _ in self.new}
        if "pcg" in words and "pcb" in words:
            told = [f"pcg and pcb {words['pcg']}, not where they are without the strike"]
        else:
            told = [self.difference(target, *pair) for pair in self.new]
        if self.gone:
            told.append("correct again: " + " ".join(self.gone))
        cause = ", ".join(f"the strike {s.step}:{s.site}:{s.word}" for s in self.strikes)
        if not cause and self.instruction:
            line = target.line_of(self.instruction)
            cause = self.instruction.short() + (f"  ({line})" if line else "")
        return f"  at {self.position:<8} {'; '.join(told) or 'no word differs':<44}  {cause}".rstrip()

    @staticmethod
    def difference(target, name, word, other):
        """A word that differs, with its name in the source."""
        return (f"{name}{target.names_of(name)} {'gone' if word is None else word}"
                + ("" if other is None else f", not {other}"))


class Runs:
    """The states from the first strike on, of the run with the strikes and of the run without."""

    def __init__(self, session, last):
        self.made = [s for s in session.strikes if s.step <= last]
        self.first = self.made[0].step
        self.end = end = min(last, self.first + MOST_STEPS)
        self.is_cut = last > end
        self.struck = session.timeline.span(self.first, end, session.strikes)
        self.clean = session.timeline.span(self.first, end, ())
        # Without the strikes an output may come later: only their order counts.
        before = len(session.timeline.outputs(self.first, session.strikes))
        self.wanted = session.timeline.outputs(end + MOST_LATER, ()).since(before)

    def first_wrong(self):
        """(position, output, output without the strikes or None) of the first output that differs, or None."""
        wanted = iter(self.wanted)
        # What the first state committed comes before the strike.
        for state in self.struck[1:]:
            for line in state.commits.splitlines():
                right = next(wanted, None)
                if line != right:
                    return state.position, line, right
        return None


def way(session, runs):
    """The changes from the first strike on."""
    made, clean = runs.made, runs.clean
    found, known, fetched = [], {}, session.fetched(runs.first)
    for i, state in enumerate(runs.struck):
        if state.status == "detected":
            break
        # Once the run without the strikes has stopped, it no longer changes.
        now = {name: (word, other) for name, word, other in differences(state, clean[min(i, len(clean) - 1)])}
        new = [(name,) + pair for name, pair in now.items() if known.get(name) != pair]
        gone = [name for name in known if name not in now]
        strikes = [s for s in made if s.step == state.position]
        change = Change(state.position, None if strikes else fetched, strikes, new, gone, len(now))
        if i and not {"pcg", "pcb"} & known.keys():
            change.passed = passed(session.target, fetched, runs.struck[i - 1], clean[min(i, len(clean)) - 1])
        if fetched and not is_fetch(state.position - 1):
            change.meets = meeting(fetched.words, runs.struck[i - 1] if i else state, known)
        if new or gone or strikes or change.passed:
            found.append(change)
        known = now
        if is_fetch(state.position):
            fetched = session.target.at(state.pcg) if state.block is not None else None
    return found


def passed(target, fetched, state, other):
    """What the step from a state compared and found equal, where the words are not those of the other state."""
    instruction = None if is_fetch(state.position) else fetched
    names = target.named, target.named_target
    right = compared(other, instruction, *names)
    return [row for row in compared(state, instruction, *names) if row.same and row not in right]


def meeting(words, state, known):
    """(name, colour) of an instruction's operands, if they mix colours and one of the words differs."""
    taken, own = [(name, state.colour(name)) for name in read_registers(words)], own_colour(words)
    if not any(name in known for name, _ in taken):
        return []
    if own:
        others = [(name, colour) for name, colour in taken if colour != own]
        one = "the instruction" if words[0][-2] == "_" else f"the number {words[4]}"
        return others + [(one, own)] if others else []
    return taken if len({colour for _, colour in taken}) > 1 else []


def cause_lines(target, changes):
    """Where a program mixes its colours, so that one fault is on both sides, as lines; empty if nowhere."""
    lines = []
    for change in changes:
        if change.meets:
            colours = [f"{name} is {'green' if colour == 'G' else 'blue'}" for name, colour in change.meets]
            lines.append(f"  at {change.position:<8} {change.instruction.short()}  "
                         f"({target.place_of(change.instruction)}): {', '.join(colours)}")
    if not lines:
        return []
    more = [f"  .. {len(lines) - MOST_CAUSES} more .."] if len(lines) > MOST_CAUSES else []
    return ["the cause: green and blue are mixed, so the fault is on both sides:"] + lines[:MOST_CAUSES] + more


def way_lines(session, last):
    """The path as lines, with the first wrong output, and the lines of the cause."""
    runs, target = Runs(session, last), session.target
    changes = way(session, runs)
    lines = [line for change in changes for line in change.lines(target)]
    if len(lines) > MOST_LINES:
        kept = MOST_LINES // 2
        lines[kept:-kept] = [f"  .. {len(lines) - 2 * kept} more .."]
    if wrong := runs.first_wrong():
        position, line, right = wrong
        instruction = session.fetched(position - 1)
        lines.append(f"the first wrong output: {line}, {'not ' + right if right else 'where there should be none'}; "
                     f"committed at {position}: {instruction.short()}  ({target.place_of(instruction)})")
    if changes and changes[-1].left == 0 and all(s.step <= runs.end for s in runs.made):
        # From here on the runs are equal.
        lines.append(f"gone at {changes[-1].position}: from there on no word differs")
    elif runs.is_cut:
        lines.append(f"(only the first {MOST_STEPS:,} steps of the path are shown, up to {runs.end})")
    return lines, cause_lines(target, changes)


def stop_lines(session):
    """The state of the run: running, done, or detected and why."""
    state = session.state()
    if state.status == "done":
        return [f"done after {state.position} steps: {counted(len(session.outputs()), 'output')}, nothing was detected"]
    if state.status == "running":
        return [f"at {state.position} running: nothing is detected"]
    instruction, told = reason(session)
    what = f"{instruction.short()}  ({session.target.place_of(instruction)})" if instruction else "a fetch"
    lines = [f"detected at step {state.position - 1}: {what}"]
    if instruction and instruction.source_line:
        lines.append(f"  {instruction.source_line}: {session.target.source[instruction.source_line - 1].strip()}")
    return lines + ([f"  {told.sentence}"] + table(told.compared) if told else
                    ["  docs/MACHINE.md has no row for this"])


def end_line(session):
    """The fault's result. Outputs are compared in order: one run may lag behind the other."""
    state, outputs = session.state(), session.outputs()
    text, clean = outputs.text(), session.timeline.outputs(state.position + MOST_LATER, ()).text()
    if state.status == "detected":
        how = "as in" if clean.startswith(text) else "which DIFFER from"
        return f"{counted(len(outputs), 'output')} before that, {how} the run without the strike"
    left = differences(state, session.unstruck())
    same = text == clean if state.status == "done" else clean.startswith(text)
    if same and not left:
        return f"at {state.position}: no word and no output differs: the fault is gone"
    told = f"at {state.position}: {counted(len(left), 'word')} {'differs' if len(left) == 1 else 'differ'}"
    so_far = " so far" if state.status == "running" else ""
    corrupt = ", so the run is corrupt" if state.status == "done" else ""
    return told + (f"; the outputs are the same{so_far}" if same else f"; the OUTPUTS DIFFER{corrupt}")


def explain(session):
    """What stopped the run, and what strikes have changed up to there, as lines."""
    state = session.state()
    lines = stop_lines(session)
    passed_by = [s for s in session.strikes if s.step <= state.position]
    made = [s for s in passed_by if not session.timeline.idle.get(s)]
    if passed_by and not made:
        names = ", ".join(f"{s.step}:{s.site}:{s.word}" for s in passed_by)
        return lines + [f"the strike {names} was not made: nothing was there"] + session.target.refusal()
    if not made:
        ahead = ", ".join(f"{s.step}:{s.site}:{s.word}" for s in session.strikes)
        if ahead and state.status == "running":
            return lines + [f"the strike {ahead} is still ahead: `continue` first, then `explain`"]
        if state.status == "detected":
            return lines + ["no strike was made: the object itself does this"] + session.target.refusal()
        return lines + [f"no strike was made: the run ends before {ahead}" if ahead else "no strike was made"]
    told, cause = way_lines(session, state.position)
    end = end_line(session)
    lines += ["the path of the fault (what differs from the run without it):"] + told + [end]
    if len(made) > 1 and "DIFFER" in end:
        lines.append(f"{len(made)} strikes were made: the promise covers one")
    return lines + cause + session.target.refusal()
