"""A user's session: where it is, its strikes, breakpoints and watches, and what can be undone.

The prompt, the screen and the adapter for editors all use it."""
from common import ALL_SITES, SITES, WORDS, Misused, Refused, invalid_fault
from debugging import breaks, changes, runs
from debugging.journal import Journal
from debugging.machine import is_fetch
from debugging.reading import NO_WORD, no_dollar, number, word_of
from debugging.sessions import Interrupted, Strike, Timeline
from messages import near, quoted

MOST_UNDONE = 1_000
# The longest turn of a loop that is recognized as endless, in steps.
MOST_TURN = 256


class Session:
    """Moves, strikes, and the words at a position."""

    def __init__(self, target, fault=None, timeline=None):
        """Sessions may share a timeline: then states that one has read serve the next."""
        self.target, self.timeline = target, timeline or Timeline(target)
        self.position, self.strikes = 0, ()
        self.breaks, self.watches, self.next_number = {}, {}, 1
        self.past, self.journal = [], Journal()
        # How far a move that looks for its end goes at most, and what is called as it goes on, with the steps so far.
        self.most, self.progress = None, lambda steps: None
        if fault:
            self.plan(fault)

    # THE WORDS AT A POSITION

    def state(self):
        """The state at the current position."""
        return self.state_at(self.position)

    def state_at(self, position):
        """The state at another position of this run."""
        return self.timeline.state_at(position, self.strikes)

    def unstruck(self):
        """The state of the run without the strikes, at the current position."""
        return self.timeline.state_at(self.position, ())

    def fetched(self, position):
        """The instruction that the step from a position executes, or None: the counters pointed to it one step before."""
        if is_fetch(position):
            return None
        before = self.state_at(position - 1)
        return self.target.at(before.pcg) if before.block is not None else None

    def current(self):
        """The instruction that the next step fetches or executes, or that the machine stopped in; or None."""
        state = self.state()
        # The step that stopped the machine changed neither its counters nor what was fetched.
        position = state.position - (state.status != "running")
        if not is_fetch(position):
            return self.fetched(position)
        return self.target.at(state.pcg) if state.block is not None else None

    def outputs(self):
        """The outputs so far."""
        return self.timeline.outputs(self.position, self.strikes)

    def cells(self, names=None):
        """The words of these cells, or of all."""
        return self.timeline.cells(self.position, self.strikes, names)

    def word(self, name):
        """The word of a register, a part of the queue or a cell."""
        word = self.state().word(name)
        if word is None and name in self.target.listing.cells:
            word = self.cells([name])[name]
        if word is None and name.startswith("$"):
            raise no_dollar(name)
        if word is None and name in SITES:
            raise Refused(f"`{name}`: the queue has {len(self.state().queue)} entries here")
        if word is None:
            raise self.unknown(name)
        return word

    def unknown(self, name):
        """What to say about an unknown name."""
        variable = ", a cell or a variable" if self.target.names is not None else " or a cell"
        known = list(self.target.listing.cells) + list(self.target.names or {})
        more = "; a variable needs `--source SOURCE`" if self.target.kind == "object" and self.target.names is None else ""
        return Refused(f"unknown name {quoted(name)}: expected a register (r0 to r63, d, pcg, pcb), a part of the "
                       f"queue (qa0 to qv7){variable}{near(name, known) or more}")

    def registers_of(self, name):
        """The pair of registers of a variable of the source, or the name itself."""
        self.target.check_array(name)
        place = (self.target.names or {}).get(name)
        return [f"r{place.pair}", f"r{place.pair + 32}"] if place and place.pair is not None else [name]

    # MOVES

    def keep(self):
        """Records what `undo` returns to."""
        self.past.append((self.position, self.strikes))
        del self.past[:-MOST_UNDONE]

    def go_to(self, position, again=False):
        """Goes to a position. Later strikes are forgotten, as with `back`; planned ones stay."""
        position = max(0, position)
        old, strikes = self.position, self.strikes
        if position < old:
            strikes = tuple(s for s in strikes if s.step <= position or s.planned)
        state = self.timeline.state_at(position, strikes)
        if state.position == old and strikes == self.strikes:
            return state
        if not again:
            self.keep()
        self.position, self.strikes = state.position, strikes
        self.journal.move(old, self.position, strikes)
        return state

    def step(self, count):
        """Steps forward."""
        return self.go_to(self.position + count)

    def back(self, count):
        """Steps back."""
        if count > self.position:
            raise Refused(f"cannot go {count} steps back: the start is {self.position} steps back")
        return self.go_to(self.position - count)

    def undo(self):
        """Returns to where the last command that moved or struck began."""
        if not self.past:
            raise Refused("nothing to undo")
        self.position, self.strikes = self.past.pop()
        self.journal.again(self.position, self.strikes)
        return self.state()

    def places(self):
        """Where the breakpoints are."""
        return breaks.places_of(self.breaks.values())

    def halting(self, position=None):
        """The breakpoints that halt here or at another position, by number: their conditions and hit counts are met."""
        state = self.state_at(self.position if position is None else position)
        return {number: one for number, one in self.breaks.items()
                if runs.is_break(state, one.places) and self.is_due(one, state.position)}

    def is_due(self, one, position):
        """Whether a breakpoint's condition and its hit count are met at a position."""
        if one.condition:
            questions = one.condition.questions()
            answers = self.timeline.ask_at(position, self.strikes, questions)
            if not one.condition.holds({line: answers.line() for line in questions}):
                return False
        return one.least <= 1 or self.hits(one, position) >= one.least

    def go(self, more=()):
        """Forward to the first breakpoint, those in `more` included, to a change of a watched word, or to the stop.

        An interrupted move ends at the last position that it reached; if it reached none, it raises Interrupted."""
        every = list(self.breaks.values()) + list(more)
        if len(breaks.places_of(every)) > breaks.MOST:
            raise Refused(breaks.TOO_MANY)
        return self.search(self.first_stop, every)

    def search(self, find, every, again=False):
        """Forward to where `find` stops, in longer and longer stretches; to a loop that never ends, or to the limit."""
        start = here = self.position
        try:
            for end in runs.stretches(start, self.most):
                # This stretch also looks at the end of the previous one.
                stop = find(max(start, here - 1), end, every)
                # `find` has looked at a whole turn of a loop that had begun by then.
                if stop.reason == "limit" and not breaks.are_counted(every) and (turn := self.turn(end - MOST_TURN)):
                    stop = runs.Stop(self.loop_start(max(start, here - MOST_TURN), end), "running", "loop", turn)
                if stop.reason != "limit":
                    return self.arrive(stop, again)
                here = end
                self.progress(here - start)
            return self.arrive(stop, again)
        except (Interrupted, KeyboardInterrupt) as error:
            if here == start:
                raise Interrupted from error
        with self.timeline.calls.unstoppable():
            return self.arrive(runs.Stop(here, "running", "interrupted", None), again)

    def turn(self, position):
        """The steps of a turn if the run is in a short loop at a position, and can never leave it; else None."""
        if self.target.wild or any(strike.step > position for strike in self.strikes):
            return None
        position += position % 2
        return runs.turn_of(self.timeline.span(position, position + MOST_TURN, self.strikes))

    def loop_start(self, low, high):
        """Where the run entered the loop that it is in at position `high`, if not before `low`."""
        while low < high:
            middle = (low + high) // 2
            low, high = (low, middle) if self.turn(middle) else (middle + 1, high)
        return low + low % 2

    def first_stop(self, start, end, every):
        """Where a run first stops between two positions, and why: a breakpoint, a change, its stop, or the limit."""
        stop = self.first_break(start, end, every)
        for number, name in self.watched():
            find = changes.cell_forward if name in self.target.listing.cells else changes.register_forward
            found = find(self.timeline, start, self.strikes, name, stop.position)
            if found.reason == "watch" and (found.position < stop.position or stop.reason != "breakpoint"):
                stop = found._replace(what=(number, name) + found.what)
        return stop

    def first_break(self, start, end, every):
        """Likewise without watched words."""
        places = breaks.places_of(every)
        if breaks.are_plain(every):
            return runs.forward(self.timeline, start, self.strikes, places, end)
        return runs.forward_if(self.timeline, start, self.strikes, places, breaks.wanted_of(every),
                               breaks.are_counted(every), end)

    def watched(self):
        """(number, name) of each watched word."""
        return [(number, site) for number, sites in self.watches.items() for site in sites]

    def go_back(self):
        """Back to the last breakpoint, to before the last change of a watched word, or to the start."""
        stop, every = runs.Stop(0, "running", "start", None), list(self.breaks.values())
        if every:
            wanted = None if breaks.are_plain(every) else breaks.wanted_of(every)
            stop = runs.backward(self.timeline, self.position, self.strikes, self.places(), wanted,
                                 breaks.are_counted(every))
        for number, name in self.watched():
            find = changes.cell_backward if name in self.target.listing.cells else changes.register_backward
            found = find(self.timeline, self.position, self.strikes, name)
            if found.reason == "watch" and (found.position > stop.position or stop.reason == "start"):
                stop = found._replace(what=(number, name) + found.what)
        return self.arrive(stop)

    def until(self, parts):
        """Forward to one of these instructions, or to where `go` stops before that."""
        return self.go([breaks.Break(parts)])

    def following(self):
        """The next instruction of the text, or the first one of a later line of the source; or None."""
        current = self.current()
        for instruction in self.target.code[current.address if current else len(self.target.code):]:
            if not current.source_line or instruction.source_line > current.source_line:
                return instruction
        return None

    def finish(self):
        """Forward to the start of the next block that the run reaches, or to where `go` stops before that."""
        starts = [self.target.listing.at_place(block, 0) for block in range(len(self.target.listing.blocks))]
        return self.go([breaks.Break([instruction]) for instruction in starts if instruction])

    def arrive(self, stop, again=False):
        """Goes to where a run stops."""
        self.go_to(stop.position, again)
        return stop

    # STRIKES

    def zap(self, site, word, planned=False):
        """Strikes now; returns the old word. The program says whether the site exists."""
        self.check_strike(site, word)
        said = self.timeline.ask_at(self.position, self.strikes, [f"zap {site} {word}"]).line()
        if said != "zapped":
            raise Refused(f"{said}: {self.why_nothing(site)}")
        old = self.word(site)
        self.keep()
        self.add_strike(Strike(self.position, site, word, planned))
        self.journal.put(f"zap {site} {word}")
        return old

    def why_nothing(self, site):
        """Why a strike finds nothing at a site."""
        if self.state().status != "running":
            return "the machine has stopped"
        pairs = len(self.state().queue)
        return f"`{site}` is a part of the queue, which " + (f"ends with qa{pairs - 1} and qv{pairs - 1}" if pairs
                                                             else "is empty")

    def flip(self, site, bit):
        """Strikes now: flips one bit of the current word."""
        if not 0 <= bit < 64:
            raise Refused(f"invalid bit {bit}: expected 0 to 63")
        self.check_strike(site, 0)
        old = self.state().word(site)
        return self.zap(site, 0 if old is None else old ^ 1 << bit)

    def check_strike(self, site, word):
        """Refuses what cannot be struck, or written there."""
        registers = self.registers_of(site)
        if len(registers) == 2:
            raise Refused(f"`{site}` is a variable: strike its green word in {registers[0]}, or its blue one in "
                          f"{registers[1]}")
        if site in self.target.listing.cells:
            raise Refused(f"`{site}` is a cell, and no fault strikes a cell (docs/PROMISES.md)")
        if site not in SITES:
            raise Refused(f"the site {quoted(site)} is not one of {ALL_SITES}")
        if not 0 <= word < WORDS:
            raise Refused(f"`{word}` is {NO_WORD}")

    def add_strike(self, strike):
        """Adds a strike; the strikes stay sorted by step."""
        self.strikes = tuple(sorted(self.strikes + (strike,), key=lambda s: s.step))

    def plan(self, text):
        """Plans a strike STEP:SITE:WORD, which is made each time the session passes the step."""
        strike = self.read_strike(text)
        if strike in self.strikes:
            raise Refused(f"{quoted(text)} is already planned")
        self.keep()
        self.add_strike(strike)
        if strike.step <= self.position:
            self.take_new_past()
        return self.strikes

    def read_strike(self, text):
        """Reads `STEP:SITE:WORD` as a planned strike."""
        parts = text.split(":")
        if len(parts) != 3 or not all(parts):
            raise Misused(f"invalid fault {quoted(text)}: expected STEP:SITE:WORD, such as 4:r1:6")
        if parts[0] in SITES:
            raise Misused(invalid_fault(text, "the step comes first, then the site"))
        try:
            strike = Strike(number(parts[:1]), parts[1], word_of(parts[2]), True)
            self.check_strike(strike.site, strike.word)
        except Refused as error:
            raise Misused(invalid_fault(text, error)) from error
        return strike

    def unplan(self, text=None):
        """Forgets planned strikes, or the given one."""
        planned = {s for s in self.strikes if s.planned}
        gone = planned if text is None else {self.read_strike(text)}
        if not gone <= planned:
            raise Refused(f"{quoted(text)} is not planned: `info strikes` lists the strikes")
        self.keep()
        self.strikes = tuple(s for s in self.strikes if s not in gone)
        self.take_new_past()

    def take_new_past(self):
        """Called when strikes before this position have changed: the machine may now stop sooner."""
        self.position = self.state().position
        self.journal.again(self.position, self.strikes)

    # BREAKPOINTS AND WATCHES

    def add_break(self, text, temporary=False):
        """Sets a breakpoint, given as `PLACE [if CONDITION] [hit N]`."""
        one = breaks.read(text, self.target, temporary)
        for number, other in self.breaks.items():
            if one.is_as(other):
                raise Refused(f"{quoted(text)} is breakpoint {number} already")
        if len(self.places() | one.places) > breaks.MOST:
            raise Refused(breaks.TOO_MANY)
        number = self.number()
        self.breaks[number] = one
        return number, one

    def hits(self, one, position=None):
        """How often a breakpoint was reached and its condition held, from the start up to here or another position."""
        wanted = breaks.wanted_of([breaks.Break(one.parts, condition=one.condition)])
        end = (self.position if position is None else position) + 1
        return len(runs.hits(self.timeline, 0, end, self.strikes, one.places, wanted))

    def add_watch(self, name):
        """Sets a watch on a register, a counter or a cell, or on both registers of a variable."""
        sites = self.registers_of(name)
        if sites[0] not in self.target.listing.cells and sites[0] not in SITES[:67]:
            raise Refused(f"`{name}`: parts of the queue cannot be watched") if name in SITES else self.unknown(name)
        if sites in self.watches.values():
            number = next(number for number, watched in self.watches.items() if watched == sites)
            raise Refused(f"`{name}` is already watched, by watch {number}")
        number = self.number()
        self.watches[number] = sites
        return number

    def number(self):
        """The next number of a breakpoint or a watch."""
        self.next_number += 1
        return self.next_number - 1

    def delete(self, number):
        """Forgets a breakpoint or a watch."""
        if self.breaks.pop(number, None) is None and self.watches.pop(number, None) is None:
            raise Refused(f"no breakpoint or watch has the number {number}: `info breaks` lists them")
