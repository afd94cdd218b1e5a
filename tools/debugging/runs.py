"""Long runs of a session: forward and back to breakpoints, and the state at many of them from one call."""
import collections
import math

from debugging.machine import is_fetch
from debugging.sessions import MOST_STEPS, path

# How many questions one call may have, and how far each call of a search looks.
MOST_LINES = 40_000
CHUNKS = (4_096, 262_144, 16_777_216, 1_073_741_824)
FIRST_STRETCH = 65_536

# Where a run stopped, and why: `what` is the place, or the words before and after a change.
Stop = collections.namedtuple("Stop", "position status reason what")
# A breakpoint with its conditions: what is asked at each halt, and whether the answers satisfy it.
Wanted = collections.namedtuple("Wanted", "questions holds")


def is_break(where, places):
    """Whether a run halts at a place: nothing is fetched, and both counters are there."""
    return is_fetch(where.position) and where.status == "running" and (where.block, where.index) in places


def break_lines(places):
    """The lines that set breakpoints."""
    return [f"break {block} {index}" for block, index in sorted(places)]


def stretches(position, most=None):
    """Where a run forward is inspected, up to `most` steps ahead: what is known up to there is kept if it is interrupted.

    Each call goes from the start, so each stretch is four times as long as the one before."""
    count, left = FIRST_STRETCH, math.inf if most is None else most
    while left > 0:
        position += min(count, left)
        yield position
        left -= count
        count *= 4


def turn_of(states):
    """After how many steps the first of these states, at a fetch, comes again without an output; None if it does not."""
    first = states[0]
    for state in states[1:]:
        if state.commits or state.status != "running":
            return None
        if is_fetch(state.position) and (state.pcg, state.pcb, state.queue, state.lines) == (
                first.pcg, first.pcb, first.queue, first.lines):
            return state.position - first.position
    return None


def forward(timeline, position, strikes, places, limit=None):
    """The first breakpoint after a position, the machine's stop, or the limit."""
    here, times = position, 1 if limit is None else min(256, max(1, -(-(limit - position) // MOST_STEPS)))
    while True:
        plan = going(here, [s for s in strikes if s.step > here], times)
        stop, here = follow(timeline, position, here, strikes, places, limit, plan)
        if stop:
            return stop
        times = min(times * 4, 256)


def going(here, ahead, times):
    """The `go` lines and strikes of a run from here on, as (steps, strike)."""
    asked = []
    for strike in ahead:
        if strike.step - here > times * MOST_STEPS:
            # This strike is made after this call.
            break
        while here < strike.step:
            asked.append((min(strike.step - here, MOST_STEPS), None))
            here += asked[-1][0]
        asked.append((0, strike))
    return asked + [(MOST_STEPS, None)] * times


def follow(timeline, position, here, strikes, places, limit, plan):
    """Executes a plan that `going` made: why the run stops, or None, and how far it got."""
    lead = break_lines(places) + path(strikes, 0, here)
    script = list(lead)
    for count, strike in plan:
        script += [f"zap {strike.site} {strike.word}" if strike else f"go {count}", "where"]
    answers = timeline.calls.ask(script)
    answers.skip(lead)
    at = here
    for (count, strike), (_, coming) in zip(plan, plan[1:] + [(0, None)]):
        answers.line() if strike else answers.step()
        where = answers.where()
        at += count
        if limit is not None and where.position >= limit:
            return Stop(limit, "running", "limit", None), at
        if where.status != "running":
            return Stop(where.position, where.status, where.status, None), at
        # All strikes at a position are made before it is inspected.
        waits = coming is not None and coming.step == where.position
        if where.position > position and not waits and is_break(where, places):
            return Stop(where.position, where.status, "breakpoint", (where.block, where.index)), at
        if where.position != at:
            break
    return None, max(here, where.position)


def marks(strikes, start, end):
    """The positions of strikes and those right before them, to distinguish an instruction's change from a strike's."""
    return {at for s in strikes for at in (s.step - 1, s.step) if start < at <= end}


def halts(timeline, start, end, strikes, places, questions=()):
    """(where, answers) at the start, at each breakpoint, and now and then in between; strikes are made on the way."""
    found, here = [], start
    for stop in sorted(at for at in marks(strikes, start, end) if at < end) + [end]:
        first = True
        while here < stop:
            told, here, over = halts_up_to(timeline, here, stop, strikes, places, list(questions))
            found += told if first else told[1:]
            first = False
            if over:
                return found
    return found


def halts_up_to(timeline, here, stop, strikes, places, questions):
    """One call of `halts`: its answers, how far it got, and whether the machine stopped.

    If none of its `go` lines halts, they cover at least the whole way and at most twice that, unless MOST_STEPS limits
    them."""
    count = min(MOST_LINES // (len(questions) + 1), (stop - here) // 2 + 1)
    lead = break_lines(places) + path(strikes, 0, here)
    unit = [f"go {min(max(2, 2 * (stop - here) // count), MOST_STEPS)}"] + questions + ["where"]
    answers = timeline.calls.ask(lead + questions + ["where"] + unit * count)
    answers.skip(lead)
    told = [answers.line() for _ in questions]
    where = answers.where()
    found = [(where, told)]
    for _ in range(count):
        if where.status != "running":
            return found, here, True
        answers.step()
        told, where = [answers.line() for _ in questions], answers.where()
        if where.position >= stop:
            return found, stop, False
        here = where.position
        found.append((where, told))
    return found, here, False


def hits(timeline, start, end, strikes, places, wanted=None):
    """The halts from start to before end that are at breakpoints whose conditions hold."""
    questions = wanted.questions if wanted else []
    return [where for where, told in halts(timeline, start, end, strikes, places, questions)
            if is_break(where, places) and (not wanted or wanted.holds((where.block, where.index), told))]


def forward_if(timeline, position, strikes, places, wanted, counted, limit):
    """Like `forward`, to the first breakpoint whose conditions hold. Hits are counted from the start."""
    here = 0 if counted else position
    for chunk in CHUNKS + (CHUNKS[-1],) * 1_000_000:
        end = min(here + chunk, limit)
        found = [where for where in hits(timeline, here, end, strikes, places, wanted) if where.position > position]
        if found:
            return Stop(found[0].position, "running", "breakpoint", (found[0].block, found[0].index))
        where = place_at(timeline, end, strikes)
        if where.status != "running":
            return Stop(where.position, where.status, where.status, None)
        if end == limit:
            break
        here = end
    return Stop(limit, "running", "limit", None)


def backward(timeline, position, strikes, places, wanted=None, counted=False):
    """The last breakpoint before a position whose conditions hold, or the start."""
    end = position
    for chunk in (position,) if counted else CHUNKS:
        start = max(0, end - chunk)
        found = [where for where in hits(timeline, start, end, strikes, places, wanted) if where.position < position]
        if found:
            return Stop(found[-1].position, "running", "breakpoint", (found[-1].block, found[-1].index))
        if start == 0:
            break
        end = start
    return Stop(0, "running", "start", None)


def place_at(timeline, position, strikes):
    """Where the run is at a position, or at an earlier stop."""
    return timeline.ask_at(position, strikes, ["where"]).where()


def places_between(timeline, start, end, strikes):
    """(position, block, index) every two steps of a run; fewer if the machine stops."""
    found, lead = [], path(strikes, 0, start)
    points = list(range(start, end + 1, 2))
    script, last = lead + ["where"], start
    for at in points[1:]:
        script += path(strikes, last, at) + ["where"]
        last = at
    answers = timeline.calls.ask(script)
    answers.skip(lead)
    last = start
    for at in points:
        answers.skip(path(strikes, last, at) if at > start else [])
        where = answers.where()
        found.append((where.position, where.block, where.index))
        if where.position < at:
            break
        last = at
    return found
