"""Steps of instructions and of source lines, forward and back."""
from debugging import breaks, runs
from debugging.machine import is_fetch

# How far one call looks for the end or the beginning of a line.
CHUNKS = (512, 8_192) + (100_000,) * 1_000_000


def forward(session, count=1, by_line=True):
    """Steps instructions forward, or source lines if known; a breakpoint or a stop ends the move.

    Returns the stop if the end of a line was not reached, or the state."""
    for turn in range(count):
        if session.state().status != "running":
            break
        line = line_of(session.current()) if by_line else None
        if line is None:
            session.go_to(session.position + (2 if is_fetch(session.position) else 1), again=turn > 0)
        elif (stop := to_end_of_line(session, line, turn > 0)).reason in ("limit", "loop", "interrupted"):
            return stop
        if session.halting():
            break
    return session.state()


def back(session, count=1, by_line=True):
    """Steps back by instructions, or by source lines if they are known: to where each line was entered."""
    for turn in range(count):
        if session.position == 0:
            break
        at = session.position - (1 if not is_fetch(session.position) else 2)
        line = line_of(session.target.at(session.state_at(at).pcg)) if by_line else None
        session.go_to(at if line is None else start_of_line(session, at, line), again=turn > 0)
    return session.state()


def line_of(instruction):
    """The source line of an instruction, or None."""
    return instruction.source_line if instruction else None


def to_end_of_line(session, line, again):
    """Goes to where the run leaves a line, or reaches a breakpoint. A line begins with a block or after another line's
    code."""
    code = session.target.code
    starts = [i for before, i in zip([None] + code, code)
              if i.source_line != line and (i.index == 0 or before.source_line != i.source_line)]
    every = list(session.breaks.values()) + ([breaks.Break(starts)] if starts else [])
    if len(breaks.places_of(every)) <= breaks.MOST:
        return session.search(session.first_break, every, again)

    def leaves(start, end, _):
        """Likewise where there are too many breakpoints: asks for each place of a stretch."""
        start, end = start + start % 2, end + end % 2
        for chunk in CHUNKS:
            last = min(end, start + chunk)
            told = runs.places_between(session.timeline, start, last, session.strikes)
            for at, block, index in told:
                here = session.target.listing.at_place(block, index) if block is not None else None
                if at > session.position and (line_of(here) != line
                                              or (block, index) in session.places() and session.halting(at)):
                    return runs.Stop(at, "running", "breakpoint", None)
            if told[-1][0] < last:
                return runs.Stop(told[-1][0], "done", "done", None)
            if last == end:
                break
            start = last
        return runs.Stop(end, "running", "limit", None)
    return session.search(leaves, list(session.breaks.values()), again)


def start_of_line(session, end, line):
    """Where the run entered the line that it is on at position `end`."""
    for chunk in CHUNKS:
        start = max(0, end - chunk)
        for at, block, index in reversed(runs.places_between(session.timeline, start, end, session.strikes)):
            here = session.target.listing.at_place(block, index) if block is not None else None
            if is_fetch(at) and line_of(here) != line:
                return at + 2
        if start == 0:
            return 0
        end = start
    return 0
