"""What the adapter's client sees of a stopped session: frames, scopes, words, texts."""
import os

from common import SITES, Refused
from debugging import explaining, views
from debugging.commands import Commands, Quit
from debugging.machine import is_fetch
from debugging.reading import word_of
from messages import quoted

# The only thread, and the reference of the text that `dis` writes.
THREAD, DIS = 1, 1
SCOPES = ["Green", "Blue", "Special", "Queue", "Cells", "Differences", "Outputs"]
KINDS = {"G": "green word", "B": "blue word"}
# An editor shows each output as a variable, so only the last ones are listed.
MOST_OUTPUTS = 1_000


class Views:
    """Requests that show words, and those that strike them."""

    # WHERE THE SESSION IS

    def on_threads(self, request, asked):
        self.wire.answer(request, {"threads": [{"id": THREAD, "name": "machine"}]})

    def text_source(self):
        """The assembly text: the user's own, or that of `dis`."""
        target = self.session.target
        if target.text_file:
            return {"name": os.path.basename(target.text_file), "path": target.text_file}
        return {"name": os.path.basename(target.path) + ".asm", "sourceReference": DIS, "origin": "talft dis"}

    def source(self):
        """The file whose lines are shown: the source if its lines are known, or else the assembly text."""
        path = self.session.target.source_file
        return {"name": os.path.basename(path), "path": path} if path else self.text_source()

    def line(self, instruction):
        """The line as the client counts it."""
        return instruction.shown_line() - self.less()

    def less(self):
        """0 if the client counts lines from 1."""
        return 0 if self.client.get("linesStartAt1", True) else 1

    def column(self):
        """The first column."""
        return 1 if self.client.get("columnsStartAt1", True) else 0

    def on_stackTrace(self, request, asked):
        session = self.session
        state, instruction = session.state(), session.current()
        name = f"{views.status_line(session)}: counters {state.pcg} {state.pcb}"
        frame = {"id": self.frame, "name": name, "line": 0, "column": 0}
        if instruction:
            doing = "" if state.status != "running" else "fetch " if is_fetch(state.position) else "execute "
            name = (f"{views.status_line(session)}: {doing}{instruction.short()} "
                    f"({views.place_of(session, instruction)})")
            frame.update(name=name, source=self.source(), line=self.line(instruction), column=self.column(),
                         instructionPointerReference=hex(instruction.address))
        self.wire.answer(request, {"stackFrames": [frame][asked.get("startFrame") or 0:], "totalFrames": 1})

    def on_scopes(self, request, asked):
        scopes = []
        for number, name in enumerate(SCOPES, 1):
            scope = {"name": name, "variablesReference": number, "expensive": name in ("Differences", "Outputs")}
            if name in ("Green", "Blue", "Special"):
                scope["presentationHint"] = "registers"
            if name == "Cells":
                scope["namedVariables"] = len(self.session.target.listing.cells)
            if name == "Queue":
                scope["namedVariables"] = 2 * len(self.session.state().queue)
            scopes.append(scope)
        self.wire.answer(request, {"scopes": scopes})

    def value(self, word, asked):
        """A word in the client's format, with the cell that has this address."""
        cell = self.session.target.cell_at(word)
        hexadecimal = (asked.get("format") or {}).get("hex")
        return (hex(word) if hexadecimal else str(word)) + (f" ({cell})" if cell else "")

    def rows(self, scope, asked):
        """(name, value, type, whether it is read only) of a scope."""
        session, state = self.session, self.session.state()
        if scope in ("Green", "Blue"):
            names = SITES[0:32] if scope == "Green" else SITES[32:64]
            return [(name, self.value(state.word(name), asked), KINDS[state.colour(name)], False) for name in names]
        if scope == "Special":
            words = [(name, self.value(state.word(name), asked), KINDS[state.colour(name)], False)
                     for name in ("d", "pcg", "pcb")]
            return words + [("position", str(state.position), "step", True), ("status", state.status, "status", True)]
        if scope == "Queue":
            return [(f"q{part}{i}", self.value(entry[part == "v"], asked), "word", False)
                    for i, entry in enumerate(state.queue) for part in "av"]
        if scope == "Cells":
            return [(name, self.value(word, asked), "cell", True) for name, word in session.cells().items()]
        if scope == "Differences":
            return [(name, f"{word}, not {other}", "difference", True)
                    for name, word, other in explaining.differences(state, session.unstruck())]
        outputs = session.outputs()
        lines = outputs.last(MOST_OUTPUTS)
        return [(str(i), line, "output", True) for i, line in enumerate(lines, len(outputs) - len(lines))]

    def on_variables(self, request, asked):
        number = asked["variablesReference"]
        if not 1 <= number <= len(SCOPES):
            raise Refused(f"`variables`: unknown reference {number}")
        rows = self.rows(SCOPES[number - 1], asked)
        start, count = asked.get("start") or 0, asked.get("count") or len(rows)
        variables = []
        for name, value, kind, fixed in rows[start:start + count]:
            variable = {"name": name, "value": value, "type": kind, "variablesReference": 0}
            if kind not in ("difference", "output", "step", "status"):
                variable["evaluateName"] = name
            if fixed:
                variable["presentationHint"] = {"attributes": ["readOnly"]}
            variables.append(variable)
        self.wire.answer(request, {"variables": variables})

    # STRIKES

    def strike(self, request, name, text, asked):
        """Writes a word where the client asks."""
        if name in self.session.target.listing.cells:
            raise Refused(f"`{name}` is a cell, and no fault strikes a cell (docs/PROMISES.md)")
        self.session.zap(name, word_of((text.split() or [""])[0]))
        self.wire.answer(request, {"value": self.value(self.session.word(name), asked), "variablesReference": 0})
        if self.client.get("supportsInvalidatedEvent"):
            self.wire.event("invalidated", {"areas": ["stacks", "variables"], "threadId": THREAD})

    def on_setVariable(self, request, asked):
        self.strike(request, asked["name"], asked["value"], asked)

    def on_setExpression(self, request, asked):
        self.strike(request, asked["expression"], asked["value"], asked)

    # WORDS AND COMMANDS

    def on_evaluate(self, request, asked):
        session, text = self.session, asked["expression"].strip()
        site = session.registers_of(text)[0]
        if site in SITES or site in session.target.listing.cells:
            self.wire.answer(request, {"result": self.value(session.word(site), asked), "variablesReference": 0})
        elif asked.get("context") not in ("repl", None):
            raise Refused(f"unknown name {quoted(text)}")
        else:
            self.command(request, text)

    def command(self, request, text):
        """Runs a command of the prompt."""
        session, lines = self.session, []
        before = session.position, session.strikes
        session.timeline.calls.may_stop = True
        try:
            Commands(session, views.plain, lines.append).do(text)
        except Quit:
            self.on_terminate(request, {})
            return
        finally:
            session.timeline.calls.may_stop = False
        self.wire.answer(request, {"result": "\n".join(lines), "variablesReference": 0})
        if before != (session.position, session.strikes):
            self.tell(None, "goto")

    def on_completions(self, request, asked):
        text = asked["text"][:asked["column"] - self.column()]
        start = len(text) - len(text.split(" ")[-1])
        found = Commands(self.session, views.plain, print).complete(text)
        targets = [{"label": word, "start": start, "length": len(text) - start} for word in found]
        self.wire.answer(request, {"targets": targets})

    def on_exceptionInfo(self, request, asked):
        lines = explaining.explain(self.session)
        self.wire.answer(request, {"exceptionId": "detected", "description": lines[0], "breakMode": "always",
                                   "details": {"message": "\n".join(lines)}})

    # TEXTS

    def on_source(self, request, asked):
        if ((asked.get("source") or {}).get("sourceReference") or asked.get("sourceReference")) != DIS:
            raise Refused("unknown source reference")
        lines = self.session.target.listing.lines
        self.wire.answer(request, {"content": "".join(line + "\n" for line in lines), "mimeType": "text/x-talft-asm"})

    def on_loadedSources(self, request, asked):
        sources = [self.source()] + ([self.text_source()] if self.source() != self.text_source() else [])
        self.wire.answer(request, {"sources": sources})

    def on_disassemble(self, request, asked):
        target = self.session.target
        first = int(asked["memoryReference"], 0) + (asked.get("offset") or 0) + (asked.get("instructionOffset") or 0)
        made = []
        for address in range(first, first + min(asked["instructionCount"], 65_536)):
            instruction = target.at(address)
            row = {"address": hex(address), "instruction": instruction.short() if instruction else "nothing"}
            if instruction:
                row.update(location=self.source(), line=self.line(instruction))
                if instruction.index == 0:
                    row["symbol"] = target.listing.label_of(instruction.block) or f"block {instruction.block}"
            else:
                row["presentationHint"] = "invalid"
            made.append(row)
        self.wire.answer(request, {"instructions": made})
