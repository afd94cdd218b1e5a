"""Where a word changes: the next or the previous step that gives a register or a cell a new word."""
import re

from debugging.machine import may_write_d, written_register
from debugging.runs import CHUNKS, Stop, halts, marks, place_at
from debugging.sessions import path

# How many breakpoints the program takes, and how many answers and pieces of a run one call may have.
MOST_PLACES, MOST_ANSWERS, PIECES = 64, 60_000, 1_000


def writers(target, name):
    """The places of the instructions that may change a register; None if there are too many, or it is a counter."""
    if name in ("pcg", "pcb"):
        return None
    found = {i.key() for i in target.code
             if (may_write_d(i.words) if name == "d" else written_register(i.words) == name)}
    return found if len(found) <= MOST_PLACES else None


def every_second(timeline, start, end, strikes, question):
    """(position, answer) from start to end, every two steps and at each strike; fewer if the machine stops."""
    found, here, struck = [], start, marks(strikes, start, end)
    while True:
        points = [here]
        while len(points) < MOST_ANSWERS and points[-1] < end:
            at = points[-1]
            points.append(min([mark for mark in (at + 1, at + 2) if mark in struck] + [at + 2, end]))
        told, stopped = answers_at(timeline, points, strikes, question)
        found += told if here == start else told[1:]
        here = points[-1]
        if stopped or here == end:
            return found


def answers_at(timeline, points, strikes, question):
    """(position, answer) at ascending positions, from one call, and whether the machine stopped before the last."""
    lead = path(strikes, 0, points[0])
    script = lead + [question]
    for last, at in zip(points, points[1:]):
        script += path(strikes, last, at) + [question]
    answers = timeline.calls.ask(script)
    answers.path(lead)
    found = [(points[0], answers.line())]
    for last, at in zip(points, points[1:]):
        stopped = False
        for line in path(strikes, last, at):
            if line.startswith("step"):
                _, position, status = answers.step()
                stopped = position != at and status != "running"
            else:
                answers.line()
        found.append((at, answers.line()))
        if stopped:
            return found, True
    return found, False


def seen(timeline, start, end, strikes, name):
    """(position, answer) over a run: between two of them at most one instruction or strike changes the word.

    The last may come before the end. Also returns how the machine stopped, if it did."""
    question = f"reg {name}"
    places = writers(timeline.target, name)
    if places is None:
        return every_second(timeline, start, end, strikes, question), None
    found = halts(timeline, start, end, strikes, places, [question])
    last = found[-1][0]
    stop = Stop(last.position, last.status, last.status, None) if last.status != "running" else None
    return [(where.position, told[0]) for where, told in found], stop


def register_forward(timeline, position, strikes, name, limit=None):
    """The first position after this one where a register has a new word; or the stop, or the limit."""
    here = position
    for chunk in CHUNKS + (CHUNKS[-1],) * 1_000_000:
        end = here + chunk if limit is None else min(here + chunk, limit)
        if here == end:
            break
        told, stop = seen(timeline, here, end, strikes, name)
        if not stop and told[-1][0] < end and (end == limit or told[-1][0] == here):
            answers = timeline.ask_at(end, strikes, ["where", f"reg {name}"])
            where = answers.where()
            told.append((where.position, answers.line()))
            stop = Stop(where.position, where.status, where.status, None) if where.status != "running" else None
        for (before, old), (after, new) in zip(told, told[1:]):
            if old != new:
                return exactly(timeline, before, after, strikes, name, old, new)
        if stop:
            return stop
        here = told[-1][0]
    return Stop(limit, "running", "limit", None)


def register_backward(timeline, position, strikes, name):
    """The last position before this one from which a step or a strike gave a register a new word; or the start."""
    end = position
    last = [(position, timeline.ask_at(position, strikes, [f"reg {name}"]).line())]
    for chunk in CHUNKS + (CHUNKS[-1],) * 1_000_000:
        if end == 0:
            break
        start = max(0, end - chunk)
        told = [(at, answer) for at, answer in seen(timeline, start, end, strikes, name)[0] if at < end] + last
        for (before, old), (after, new) in reversed(list(zip(told, told[1:]))):
            if old != new:
                found = exactly(timeline, before, after, strikes, name, old, new)
                return Stop(found.position - 1, "running", "watch", (new, old))
        end, last = start, told[:1]
    return Stop(0, "running", "start", None)


def exactly(timeline, before, after, strikes, name, old, new):
    """The first position after `before` that has the new word: after its instruction, or at a later strike."""
    for at in (before + 1, before + 2):
        if at < after and (line := timeline.ask_at(at, strikes, [f"reg {name}"]).line()) != old:
            return Stop(at, "running", "watch", (old, line))
    where = place_at(timeline, after, strikes)
    return Stop(min(after, where.position), where.status, "watch", (old, new))


def pieces(timeline, start, end, strikes, name):
    """(from, to, word before, words) for each piece of a run that stores to a cell, and the stop if there is one.

    Only a commit changes a cell, and each commit is an output. So pieces of any length show all stores."""
    width = max(1, -(-(end - start) // PIECES))
    points = list(range(start, end, width)) + [end]
    parts = [path(strikes, here, there) for here, there in zip(points, points[1:])]
    lead = path(strikes, 0, start)
    answers = timeline.calls.ask(lead + [f"cell {name}"] + [line for part in parts for line in part])
    answers.path(lead)
    word, found, pattern = str(answers.cell()), [], re.compile(rf"^{re.escape(name)} (\d+)$", re.M)
    for here, there, part in zip(points, points[1:], parts):
        stored, place = [], None
        for line in part:
            if line.startswith("step"):
                outputs, *place = answers.step()
                stored += pattern.findall(outputs)
            else:
                answers.line()
        if stored:
            found.append((here, there, word, stored))
            word = stored[-1]
        if place and place[1] != "running":
            return found, Stop(place[0], place[1], place[1], None)
    return found, None


def stores_another(piece):
    """Whether a store of a piece changes the word."""
    return any(old != new for old, new in zip([piece[2]] + piece[3], piece[3]))


def cell_change(timeline, start, end, strikes, name, last):
    """The first or the last step of a run that changes a cell, as a stop after it; and how the machine stopped."""
    stopped = None
    while True:
        found, stop = pieces(timeline, start, end, strikes, name)
        stopped = stopped or stop
        found = [piece for piece in found if stores_another(piece)]
        if not found:
            return None, stopped
        start, end, old, stored = found[-1 if last else 0]
        if end - start == 1:
            return Stop(end, "running", "watch", (f"{name} {old}", f"{name} {stored[-1]}")), stopped


def cell_forward(timeline, position, strikes, name, limit=None):
    """The first position after this one where a cell has a new word; or the stop, or the limit."""
    here, chunk = position, 4_096
    while limit is None or here < limit:
        end = here + chunk if limit is None else min(here + chunk, limit)
        found, stopped = cell_change(timeline, here, end, strikes, name, False)
        if found or stopped:
            return found or stopped
        here, chunk = end, min(chunk * 8, 64_000_000)
    return Stop(limit, "running", "limit", None)


def cell_backward(timeline, position, strikes, name):
    """The last position from which a step changed a cell, or the start."""
    end = position
    for chunk in CHUNKS:
        start = max(0, end - chunk)
        found, _ = cell_change(timeline, start, end, strikes, name, True) if start < end else (None, None)
        if found:
            return Stop(found.position - 1, "running", "watch", (found.what[1], found.what[0]))
        if start == 0:
            break
        end = start
    return Stop(0, "running", "start", None)
