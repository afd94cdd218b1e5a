"""A client's breakpoints and watches: lines of the source or of the text, addresses, words."""
import os

from common import SITES, Refused
from debugging import breaks
from debugging.adapter_views import DIS


class Breaks:
    """Requests that set breakpoints; the session holds the breakpoints of all requests."""

    def is_source(self, source):
        """Whether a client's source is the source (True), the text (False), or neither (None)."""
        target = self.session.target
        file = os.path.realpath(source["path"]) if source.get("path") else None
        if file and target.source_file and file == os.path.realpath(target.source_file):
            return True
        is_text = file and target.text_file and file == os.path.realpath(target.text_file)
        return False if is_text or source.get("sourceReference") == DIS else None

    def set_breaks(self):
        """Gives the session the breakpoints of all lines and addresses."""
        self.session.breaks = {}
        for made in [*self.line_breaks.values(), self.instruction_breaks]:
            self.session.breaks.update(made)

    def add(self, made, parts, why, wanted, source=None):
        """Adds a breakpoint; returns the reply to the client."""
        session = self.session
        number = session.number()
        places = session.places() | breaks.places_of(made.values()) | {part.key() for part in parts}
        if parts and len(places) > breaks.MOST:
            parts, why = [], breaks.TOO_MANY
        if not parts:
            return {"id": number, "verified": False, "message": why}
        try:
            condition = breaks.Condition(wanted["condition"], session.target) if wanted.get("condition") else None
            least = int(wanted.get("hitCondition") or 1)
        except (Refused, ValueError) as error:
            return {"id": number, "verified": False, "message": str(error)}
        made[number], instruction = breaks.Break(parts, condition=condition, least=least), parts[0]
        line = instruction.line - self.less() if source == self.text_source() else self.line(instruction)
        return {"id": number, "verified": True, "instructionReference": hex(instruction.address), "line": line,
                "source": source or self.source()}

    def on_setBreakpoints(self, request, asked):
        source = asked["source"]
        kind, key = self.is_source(source), source.get("path") or source.get("sourceReference")
        self.line_breaks.pop(key, None)
        self.set_breaks()
        why = "this is not the text being debugged" if kind is None else "there is no instruction on this line or after it"
        shown = None if kind is None else self.source() if kind else self.text_source()
        made, told = {}, []
        for wanted in asked.get("breakpoints") or []:
            line = wanted["line"] + self.less()
            parts = [] if kind is None else self.session.target.listing.parts_of_line(line, kind)
            told.append(self.add(made, parts, why, wanted, shown))
        self.line_breaks[key] = made
        self.set_breaks()
        self.wire.answer(request, {"breakpoints": told})

    def on_setInstructionBreakpoints(self, request, asked):
        self.instruction_breaks = {}
        self.set_breaks()
        made, told = {}, []
        for wanted in asked.get("breakpoints") or []:
            address = int(wanted["instructionReference"], 0) + (wanted.get("offset") or 0)
            parts = [one for one in [self.session.target.at(address)] if one]
            told.append(self.add(made, parts, "no instruction has this address", wanted))
        self.instruction_breaks = made
        self.set_breaks()
        self.wire.answer(request, {"breakpoints": told})

    def on_breakpointLocations(self, request, asked):
        kind = self.is_source(asked["source"])
        first = asked["line"] + self.less()
        last = (asked.get("endLine") or asked["line"]) + self.less()
        code = self.session.target.code if kind is not None else []
        lines = sorted({i.source_line if kind else i.line for i in code})
        told = [{"line": line - self.less()} for line in lines if first <= line <= last]
        self.wire.answer(request, {"breakpoints": told})

    def on_setExceptionBreakpoints(self, request, asked):
        self.filters = set(asked.get("filters") or [])
        self.wire.answer(request)

    def on_dataBreakpointInfo(self, request, asked):
        name = asked["name"]
        site = self.session.registers_of(name)[0]
        if site in self.session.target.listing.cells or site in SITES[:67]:
            self.wire.answer(request, {"dataId": name, "description": f"{name} changes", "accessTypes": ["write"],
                                       "canPersist": True})
        else:
            self.wire.answer(request, {"dataId": None, "description": f"{name} cannot be watched"})

    def on_setDataBreakpoints(self, request, asked):
        self.session.watches = {}
        told = []
        for wanted in asked.get("breakpoints") or []:
            try:
                told.append({"id": self.session.add_watch(wanted["dataId"]), "verified": True})
            except Refused as error:
                told.append({"verified": False, "message": str(error)})
        self.wire.answer(request, {"breakpoints": told})
