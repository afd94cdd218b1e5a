"""A debug adapter: answers an editor's requests from a session of the proved debugger."""
import hmac
import os
import threading
from argparse import ArgumentTypeError

from common import Refused
from debugging import explaining, runs, stepping
from debugging.adapter_breaks import Breaks
from debugging.adapter_views import THREAD, Views
from debugging.person import Session
from debugging.sessions import Interrupted
from debugging.target import Target
from messages import named, near, quoted
from options import wild_answers

# The longest assembly text that the program reads; objects and sources are shorter.
MOST_BYTES = 134_217_728
# Requests that interrupt a running move.
BREAKS_OFF = ("pause", "terminate", "disconnect")
# Requests that need no session.
FIRST = ("initialize", "launch", "attach", "disconnect", "terminate")
CAN = ["supportsConfigurationDoneRequest", "supportsStepBack", "supportsDisassembleRequest",
       "supportsInstructionBreakpoints", "supportsSteppingGranularity", "supportsSetVariable", "supportsSetExpression",
       "supportsEvaluateForHovers", "supportsTerminateRequest", "supportsRestartRequest", "supportsDataBreakpoints",
       "supportsCompletionsRequest", "supportsExceptionInfoRequest", "supportsLoadedSourcesRequest",
       "supportsBreakpointLocationsRequest", "supportsValueFormattingOptions", "supportsConditionalBreakpoints",
       "supportsHitConditionalBreakpoints"]
# The arguments of `launch`, and what each is.
LAUNCH = {"program": (str, "the name of an object, an assembly text or a source"),
          "text": (str, "the name of an assembly text"), "source": (str, "the name of a source"),
          "fault": (str, "a text STEP:SITE:WORD"), "wild": ((str, list), "a text LIST, or a list of numbers and `stop`"),
          **dict.fromkeys(("stopOnEntry", "stopAtEnd", "noDebug"), (bool, "true or false")), "token": (str, "a text")}
FILTER = {"filter": "detected", "label": "Detected", "default": True,
          "description": "Halts where the machine has stopped itself"}


def check_launch(asked):
    """Refuses arguments of `launch` that are of another kind; null is the same as none."""
    for name, (kind, wanted) in LAUNCH.items():
        if asked.get(name) is not None and not isinstance(asked[name], kind):
            raise Refused(f"`launch`: `{name}`: expected {wanted}")
    if asked.get("program") is None:
        raise Refused(f"`launch`: missing `program`: {LAUNCH['program'][1]}")


def answers_of(wild):
    """The answers to wild loads, which a launch may give as a text or as a list."""
    if wild is None:
        return None
    try:
        return wild_answers(",".join(map(str, wild)) if isinstance(wild, list) else wild)
    except ArgumentTypeError as error:
        raise Refused(f"`launch`: `wild`: {error}") from error


def unknown(asked):
    """What is said about unknown arguments that resemble a known one, as lines. Clients add others of their own."""
    told = [f"`launch`: unknown argument {quoted(name)}{hint}\n" for name in asked
            if name not in LAUNCH and (hint := near(name, LAUNCH))]
    return "".join(told)


def check_file(path):
    """Refuses a file that cannot be a program, before it is read."""
    if path is None or not os.path.exists(path) or os.path.isdir(path):
        return
    if not os.path.isfile(path):
        raise Refused(f"{named(path)}: is not an ordinary file")
    if os.path.getsize(path) > MOST_BYTES:
        raise Refused(f"{named(path)}: has more than {MOST_BYTES:,} bytes, the most that a program can have")


class Adapter(Views, Breaks):
    """Answers requests; `handle` is called for each of them in turn."""

    def __init__(self, wire, token=None):
        self.wire, self.token, self.session, self.over, self.ended = wire, token, None, False, False
        self.client, self.asked, self.frame = {}, {}, 0
        self.line_breaks, self.instruction_breaks = {}, {}
        self.filters = {"detected"}
        self.lock, self.waiting, self.stop = threading.Lock(), 0, threading.Event()

    def interrupt(self):
        """Called from another thread, before a request that interrupts a move is queued."""
        with self.lock:
            self.waiting += 1
            self.stop.set()

    def taken(self):
        """Called when that request is handled."""
        with self.lock:
            self.waiting -= 1
            if self.waiting == 0:
                self.stop.clear()

    def handle(self, request):
        """Answers one request."""
        command = request["command"]
        if command in BREAKS_OFF:
            self.taken()
        call = getattr(self, "on_" + command, None)
        if not call:
            return self.wire.refuse(request, f"unknown request `{command}`")
        if not self.session and command not in FIRST:
            return self.wire.refuse(request, "no program has been launched: send `launch` first")
        asked = request.get("arguments") or {}
        if not isinstance(asked, dict):
            return self.wire.refuse(request, f"`{command}`: `arguments` is not a JSON object")
        try:
            return call(request, asked)
        except Refused as error:
            return self.wire.refuse(request, str(error))
        except Interrupted:
            return self.wire.refuse(request, "interrupted")
        except KeyError as error:
            return self.wire.refuse(request, f"`{command}`: missing argument `{error.args[0]}`")
        except (AttributeError, IndexError, TypeError, ValueError):
            return self.wire.refuse(request, f"`{command}`: an argument is not of the kind that the protocol gives")

    # BEGIN AND END

    def on_initialize(self, request, asked):
        self.client = asked
        self.wire.answer(request, dict(dict.fromkeys(CAN, True), exceptionBreakpointFilters=[FILTER]))

    def on_attach(self, request, asked):
        raise Refused("`attach` is not possible: a session runs a program from its start; use `launch`")

    def check_token(self, asked):
        """Refuses a client that does not know the token of a port, which any program of this machine can reach."""
        if self.token is not None and not hmac.compare_digest(str(asked.get("token")).encode(), self.token.encode()):
            self.over = True
            raise Refused("`launch`: `token` is missing or wrong: it is the one that `talft-dap` wrote when it began to listen")

    def on_launch(self, request, asked):
        self.check_token(asked)
        check_launch(asked)
        for file in (asked["program"], asked.get("text"), asked.get("source")):
            check_file(file)
        target = Target(asked["program"], answers_of(asked.get("wild")), asked.get("text"), asked.get("source"))
        try:
            session = Session(target, asked.get("fault"))
            session.state()
        except Refused:
            target.close()
            raise
        session.timeline.calls.stop = self.stop
        self.close()
        self.session, self.asked = session, asked
        self.wire.answer(request)
        if told := unknown(asked):
            self.wire.event("output", {"category": "important", "output": told})
        self.wire.event("process", {"name": os.path.basename(asked["program"]), "isLocalProcess": True,
                                    "startMethod": "launch"})
        self.wire.event("initialized")

    def on_configurationDone(self, request, asked):
        self.wire.answer(request)
        if self.asked.get("noDebug") or not self.asked.get("stopOnEntry", True):
            return self.run(self.session.go)
        return self.stopped("entry", "At the start")

    def on_terminate(self, request, asked):
        self.wire.answer(request)
        self.end()

    def on_disconnect(self, request, asked):
        self.wire.answer(request)
        self.over = True

    def on_restart(self, request, asked):
        self.session.go_to(0)
        self.wire.answer(request)
        self.stopped("entry", "At the start")

    def end(self):
        """Reports once that the run has ended."""
        if self.session and not self.ended:
            self.ended = True
            self.wire.event("exited", {"exitCode": 1 if self.session.state().status == "detected" else 0})
            self.wire.event("terminated", {})

    def close(self):
        """Releases the session."""
        if self.session:
            self.session.target.close()

    # STOPS

    def stopped(self, reason, description, text=None, hits=()):
        """Reports that the run has stopped."""
        self.frame += 1
        body = {"reason": reason, "description": description, "threadId": THREAD, "allThreadsStopped": True}
        if text:
            body["text"] = text
        if hits:
            body["hitBreakpointIds"] = list(hits)
        self.wire.event("stopped", body)

    def run(self, call, *words, forward=True, reason="step"):
        """Makes a move, and reports its outputs and why it stopped."""
        session = self.session
        position = session.position
        if session.state().status != "running" and forward:
            return self.end()
        old = session.outputs()
        session.timeline.calls.may_stop = True
        try:
            stop = call(*words)
        except Interrupted:
            return self.stopped("pause", "Interrupted: the session is where it was")
        except Refused as error:
            self.wire.event("output", {"category": "important", "output": f"{error}\n"})
            return self.stopped(reason, "Refused", str(error))
        finally:
            session.timeline.calls.may_stop = False
        new = session.outputs()
        if session.position > position and len(new) > len(old):
            text = "".join(line + "\n" for line in new.since(len(old)))
            self.wire.event("output", {"category": "stdout", "output": text})
        return self.tell(stop if isinstance(stop, runs.Stop) else None, reason)

    def tell(self, stop, reason):
        """Reports why the run stopped here."""
        state, why = self.session.state(), stop.reason if stop else None
        at = f"at {state.position}"
        if why == "watch":
            return self.stopped("data breakpoint", f"{stop.what[2]} is {stop.what[3]}, {at}", hits=[stop.what[0]])
        if why == "breakpoint":
            return self.stopped(*self.broken_at(at))
        if state.status == "detected" and "detected" in self.filters and not self.asked.get("noDebug"):
            instruction, told = explaining.reason(self.session)
            return self.stopped("exception", f"Detected, {at}", told.sentence if told else None)
        if state.status == "detected":
            return self.end()
        if state.status == "done":
            if self.asked.get("noDebug") or not self.asked.get("stopAtEnd", True):
                return self.end()
            return self.stopped("pause", f"Done, {at}: you can step back")
        if why == "start":
            return self.stopped("entry", "At the start")
        if why == "loop":
            return self.stopped("pause", f"In an endless loop of {stop.what} steps, {at}")
        if why == "interrupted":
            return self.stopped("pause", f"Interrupted, {at}")
        return self.stopped(reason, f"{state.status}, {at}")

    def broken_at(self, at):
        """What the event `stopped` says about a breakpoint."""
        hits = list(self.session.halting())
        only = bool(hits) and all(number in self.instruction_breaks for number in hits)
        return "instruction breakpoint" if only else "breakpoint", f"Breakpoint, {at}", None, hits

    # MOVES

    def move(self, request, call, *words, body=None, forward=True):
        """Answers a request, and then makes the move."""
        self.wire.answer(request, body)
        self.run(call, *words, forward=forward)

    @staticmethod
    def by_line(asked):
        """Whether a client steps by lines."""
        return asked.get("granularity") != "instruction"

    def on_continue(self, request, asked):
        self.move(request, self.session.go, body={"allThreadsContinued": True})

    def on_reverseContinue(self, request, asked):
        self.move(request, self.session.go_back, forward=False)

    def on_next(self, request, asked):
        self.move(request, stepping.forward, self.session, 1, self.by_line(asked))

    def on_stepIn(self, request, asked):
        if self.by_line(asked) and self.session.target.source is not None:
            self.move(request, stepping.forward, self.session, 1, False)
        else:
            self.move(request, self.session.step, 1)

    def on_stepOut(self, request, asked):
        self.move(request, self.session.finish)

    def on_stepBack(self, request, asked):
        if self.session.position == 0:
            self.wire.answer(request)
            return self.stopped("entry", "At the start")
        return self.move(request, stepping.back, self.session, 1, self.by_line(asked), forward=False)

    def on_pause(self, request, asked):
        self.wire.answer(request)
