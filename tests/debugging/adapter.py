"""Talks to tools/dap as an editor does: python3 adapter.py [NAME..]. Ends with `N passed, M failed; K messages`."""
import json
import os
import socket
import subprocess
import sys
import time

from client import DAP, TOP, Client

EXAMPLES = os.path.join(TOP, "examples")
ENDLESS = os.path.join(TOP, "tests", "debugging", "endless.asm")


class Tests:
    """Counts what passed and what failed."""

    def __init__(self):
        self.passed = self.failed = self.messages = 0

    def check(self, name, wanted, got):
        if wanted == got:
            self.passed += 1
        else:
            self.failed += 1
            print(f"FAILED {name}: wanted {wanted!r}, got {got!r}")

    def close(self, client):
        self.check("the end", 0, client.end())
        self.check("messages of the protocol", [], client.bad)
        self.messages += client.count


def assembly(tests):
    """An assembly text with a planned fault: steps, scopes, strikes, and why it was detected."""
    client, program = Client(), os.path.join(EXAMPLES, "five.asm")
    client.begin({"program": program, "fault": "4:r1:6"})
    tests.check("entry", "entry", client.event("stopped")["reason"])
    frame = client.frame()
    tests.check("the first line", (13, program), (frame["line"], frame["source"]["path"]))
    tests.check("threads", [{"id": 1, "name": "machine"}], client.body("threads")["threads"])
    tests.check("a step", "step", client.move("next")["reason"])
    tests.check("line after next", 14, client.frame()["line"])
    client.move("stepIn")
    tests.check("within an instruction", True, "execute mov r1" in client.frame()["name"])
    client.move("stepBack")
    tests.check("back to its fetch", True, "fetch mov r1" in client.frame()["name"])
    stop = client.move("continue")
    tests.check("detected", ("exception", "the blue pair does not match the oldest green one"),
                (stop["reason"], stop.get("text")))
    told = client.body("exceptionInfo", {"threadId": 1})
    tests.check("exception", "detected at step 11: st_B r32 r33  (block 0 index 5, five.asm:20)", told["description"])
    tests.check("its way", True, "the strike 4:r1:6" in told["details"]["message"])
    tests.check("queue", {"qa0": "1048576 (out)", "qv0": "6"}, client.scope("Queue")[0])
    tests.check("differences", "6, not 5", client.scope("Differences")[0]["r1"])
    tests.check("the start", "entry", client.move("reverseContinue")["reason"])
    strikes(tests, client)
    client.body("continue", {"threadId": 1})
    client.event("exited")
    client.event("terminated")
    tests.close(client)


def strikes(tests, client):
    """Writing a word by hand undoes the planned fault."""
    client.evaluate("step 6")
    tests.check("goto", "goto", client.event("stopped")["reason"])
    tests.check("hover", "6", client.evaluate("r1", "hover"))
    answer = client.ask("evaluate", {"expression": "nonsense", "context": "hover"})
    tests.check("no such name", False, answer["success"])
    _, reference = client.scope("Green")
    told = client.body("setVariable", {"variablesReference": reference, "name": "r1", "value": "5"})
    tests.check("a strike", "5", told["value"])
    client.event("invalidated")
    client.body("continue", {"threadId": 1})
    tests.check("what it commits", "out 5\n", client.event("output")["output"])
    tests.check("done after the second strike", True, client.event("stopped")["description"].startswith("Done"))
    tests.check("outputs", {"0": "out 5"}, client.scope("Outputs")[0])
    cells, reference = client.scope("Cells")
    tests.check("cells", {"out": "5"}, cells)
    answer = client.ask("setVariable", {"variablesReference": reference, "name": "out", "value": "1"})
    tests.check("a cell is not struck", False, answer["success"])
    code = client.body("disassemble", {"memoryReference": "0x1", "instructionOffset": -2, "instructionCount": 10})
    texts = [row["instruction"] for row in code["instructions"]]
    tests.check("disassembly", (10, "nothing", "mov r0 G 1048576 ref:int"), (len(texts), texts[0], texts[2]))


def source(tests):
    """A source: its lines, watched words, addresses, conditions, completion."""
    client, program = Client(), os.path.join(EXAMPLES, "fibonacci.src")
    client.begin({"program": program, "stopOnEntry": False}, [4])
    stop = client.event("stopped")
    tests.check("a breakpoint of the source", ("breakpoint", 1), (stop["reason"], len(stop["hitBreakpointIds"])))
    frame = client.frame()
    tests.check("source line", (4, program), (frame["line"], frame["source"]["path"]))
    tests.check("locations", [{"line": 2}, {"line": 3}, {"line": 4}], client.body(
        "breakpointLocations", {"source": {"path": program}, "line": 1, "endLine": 9})["breakpoints"])
    client.set_lines(program, [])
    watches(tests, client)
    told = client.body("setInstructionBreakpoints", {"breakpoints": [
        {"instructionReference": "0x20"}, {"instructionReference": "0x999"}]})
    tests.check("by address", [True, False], [one["verified"] for one in told["breakpoints"]])
    tests.check("at an address", "instruction breakpoint", client.move("continue")["reason"])
    tests.check("the instruction", "0x20", client.frame()["instructionPointerReference"])
    tests.check("back at an address", "instruction breakpoint", client.move("reverseContinue")["reason"])
    client.body("setInstructionBreakpoints", {"breakpoints": [
        {"instructionReference": "0x20", "condition": "r0 == 13"},
        {"instructionReference": "0x20", "condition": "r0 ="}]})
    tests.check("a condition", "instruction breakpoint", client.move("continue")["reason"])
    tests.check("a variable", "13", client.evaluate("a", "hover"))
    client.body("setInstructionBreakpoints", {"breakpoints": [{"instructionReference": "0x20", "hitCondition": "2"}]})
    client.evaluate("goto 0")
    client.event("stopped")
    client.move("continue")
    tests.check("the second hit", ("1", "1"), (client.evaluate("a", "hover"), client.evaluate("i", "hover")))
    made = client.body("setInstructionBreakpoints", {"breakpoints": [
        {"instructionReference": "0x20", "condition": "r0 == 77"}, {"instructionReference": "0x20"}]})["breakpoints"]
    tests.check("only what is met is named", [made[1]["id"]], client.move("continue")["hitBreakpointIds"])
    client.body("setInstructionBreakpoints", {"breakpoints": []})
    client.move("stepOut")
    tests.check("out of the block", True, "(block 1 index 0)" in client.frame()["name"])
    texts(tests, client)
    tests.close(client)


def watches(tests, client):
    """Data breakpoints."""
    info = client.body("dataBreakpointInfo", {"name": "out", "variablesReference": 5})
    tests.check("data", "out", info["dataId"])
    told = client.body("setDataBreakpoints", {"breakpoints": [
        {"dataId": "out", "accessType": "write"}, {"dataId": "qa0"}]})
    tests.check("data breakpoints", [True, False], [one["verified"] for one in told["breakpoints"]])
    stop = client.move("continue")
    tests.check("a change", ("data breakpoint", "out 0 is out 1, at 152"), (stop["reason"], stop["description"]))
    tests.check("the next change", "out 1 is out 2, at 328", client.move("continue")["description"])
    tests.check("before it", "out 2 is out 1, at 327", client.move("reverseContinue")["description"])
    client.body("setDataBreakpoints", {"breakpoints": []})


def texts(tests, client):
    """Completion, and the text that `dis` writes."""
    targets = client.body("completions", {"text": "rev", "column": 4})["targets"]
    tests.check("completion", True, "reverse-continue" in [one["label"] for one in targets])
    sources = client.body("loadedSources")["sources"]
    tests.check("sources", 2, len(sources))
    text = client.body("source", {"sourceReference": 1, "source": sources[1]})["content"]
    tests.check("its text", True, text.startswith("cell out int 0\n"))
    client.body("restart", {})
    tests.check("restart", "entry", client.event("stopped")["reason"])
    tests.check("unknown", False, client.ask("gotoTargets", {"source": {}, "line": 1})["success"])
    client.body("terminate")
    client.event("terminated")


def refusals(tests):
    """What cannot be launched."""
    client = Client()
    answer = client.begin({"program": "/nowhere.obj"})
    tests.check("no file", "/nowhere.obj: no such file", answer["message"])
    tests.check("nothing is launched", False, client.ask("threads")["success"])
    tests.check("a device", "/dev/zero: is not an ordinary file", client.ask("launch", {"program": "/dev/zero"})["message"])
    tests.close(client)


def wrong(tests):
    """Arguments that are not what the protocol or the adapter knows."""
    client = Client()
    five, at = os.path.join(EXAMPLES, "five.asm"), "`launch`: "
    for name, wrong, wanted in (("program", ["x"], "the name of an object, an assembly text or a source"),
                                ("text", 5, "the name of an assembly text"), ("fault", 5, "a text STEP:SITE:WORD"),
                                ("wild", {"a": 1}, "a text LIST, or a list of numbers and `stop`"),
                                ("stopOnEntry", "yes", "true or false")):
        tests.check(f"an invalid {name}", f"{at}`{name}`: expected {wanted}",
                    client.ask("launch", {"program": five, name: wrong})["message"])
    tests.check("invalid answers", True, client.ask("launch", {"program": five, "wild": [1, "go"]})["message"].startswith(
        f"{at}`wild`: invalid answers `1,go`: expected "))
    client.body("launch", {"program": five, "faults": "4:r1:6", "type": "talft", "name": "one", "request": "launch",
                           "args": [], "cwd": "/", "__restart": None})
    tests.check("an argument that is nearly one", f"{at}unknown argument `faults`; did you mean `fault`?\n",
                client.event("output")["output"])
    tests.check("a missing argument", "`setVariable`: missing argument `name`", client.ask("setVariable", {})["message"])
    # The client is wrong here on purpose.
    client.bad = [line for line in client.bad if not line.startswith("client: ")]
    tests.close(client)


def port(tests):
    """An endless run over a port, which `pause` ends; and two clients at once, one of which leaves."""
    server = subprocess.Popen([DAP, "--port", "0"], stderr=subprocess.PIPE, universal_newlines=True)
    told = server.stderr.readline()
    number, token = int(told.split(":")[2].split(";")[0]), told.split()[-1]
    try:
        for wrong in ({}, {"token": "0" * 32}):
            stranger = Client(number)
            answer = stranger.begin({"program": ENDLESS, **wrong})
            tests.check("a client without the token", "`launch`: `token` is missing or wrong: it is the one that `talft-dap` wrote when "
                        "it began to listen", answer["message"])
        page = socket.create_connection(("127.0.0.1", number))
        body = json.dumps({"seq": 1, "type": "request", "command": "launch", "arguments": {"program": ENDLESS, "token": token}})
        page.sendall(f"POST / HTTP/1.1\r\nHost: 127.0.0.1\r\nContent-Length: {len(body)}\r\n\r\n{body}".encode())
        tests.check("what a web page posts", b"", page.recv(100))
        page.close()
        client = Client(number)
        client.begin({"program": ENDLESS, "token": token}, [20])
        client.event("stopped")
        tests.check("a line of the text", "breakpoint", client.move("continue")["reason"])
        tests.check("the line", 20, client.frame()["line"])
        client.set_lines(ENDLESS, [])
        client.body("continue", {"threadId": 1})
        time.sleep(0.5)
        client.body("pause", {"threadId": 1})
        stop, frame = client.event("stopped"), client.frame()
        tests.check("paused", "pause", stop["reason"])
        # The session stays where the run got to: where it began, if no call had ended yet.
        tests.check("where it got to", True, "where it was" in stop["description"] and frame["line"] == 20
                    or stop["description"].replace("Interrupted, ", "") + " running" in frame["name"])
        # A pause right after a continue is not lost.
        for sent in [client.send("continue", {"threadId": 1}), client.send("pause", {"threadId": 1})]:
            client.answer(sent)
        tests.check("paused at once", "pause", client.event("stopped")["reason"])
        other = Client(number)
        other.begin({"program": os.path.join(EXAMPLES, "five.asm"), "token": token})
        other.event("stopped")
        other.out.close()
        other.socket.close()
        client.evaluate("zap pcg 3")
        client.event("stopped")
        stop = client.move("continue")
        tests.check("counters differ", "the fetch: the green counter is not the blue one", stop["text"])
        tests.close(client)
    finally:
        server.terminate()
        tests.check("the server ends when it is told to", 143, server.wait(10))


def broken(tests):
    """An invalid message ends the server, with one line."""
    for data in (b"nonsense\r\n\r\n", b"POST / HTTP/1.1\r\nContent-Length: 2\r\n\r\n{}", b"Content-Length: x\r\n\r\n", b"Content-Length: 3\r\n\r\n{{{",
                 b"Content-Length: 99\r\n\r\n{}", b"Content-Length: 2\r\n\r\n[]"):
        run = subprocess.run([DAP], input=data, stdout=subprocess.PIPE, stderr=subprocess.PIPE, check=False)
        tests.check(f"status after {data!r}", (1, b"", 1), (run.returncode, run.stdout, run.stderr.count(b"\n")))
    run = subprocess.run([DAP], input=b"", stdout=subprocess.PIPE, stderr=subprocess.PIPE, check=False)
    tests.check("no input", (0, b"", b""), (run.returncode, run.stdout, run.stderr))


def main(names):
    tests = Tests()
    for name in names or ["assembly", "source", "refusals", "wrong", "port", "broken"]:
        globals()[name](tests)
    print(f"{tests.passed} passed, {tests.failed} failed; {tests.messages} messages")
    return 1 if tests.failed else 0


if __name__ == "__main__":
    sys.exit(main(sys.argv[1:]))
