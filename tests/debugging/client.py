"""A client of tools/dap that records what it sends and receives, and checks each message in both directions."""
import json
import os
import queue
import socket
import subprocess
import threading

import protocol
import published

TOP = os.path.dirname(os.path.dirname(os.path.dirname(os.path.abspath(__file__))))
DAP = os.path.join(TOP, "tools", "dap")
CHECKS = [protocol.check] + ([published.Schema().check] if published.is_there() else [])


class Client:
    """Talks to a server of its own, or to one at a port."""

    def __init__(self, port=None):
        self.bad, self.events, self.sent, self.heard, self.count = [], [], 0, 0, 0
        if port:
            self.process, self.socket = None, socket.create_connection(("127.0.0.1", port))
            self.out, self.source = self.socket.makefile("wb"), self.socket.makefile("rb")
        else:
            self.process = subprocess.Popen([DAP], stdin=subprocess.PIPE, stdout=subprocess.PIPE)
            self.out, self.source = self.process.stdin, self.process.stdout
        self.inbox = queue.Queue()
        threading.Thread(target=self.listen, daemon=True).start()

    def checked(self, message, whose=""):
        """Checks a message."""
        self.count += 1
        self.bad += [whose + line for check in CHECKS for line in check(message)]

    def listen(self):
        """Receives the server's messages."""
        while True:
            header = {}
            while (line := self.source.readline()) not in (b"\r\n", b""):
                name, _, value = line.partition(b":")
                header[name.strip().lower()] = value.strip()
            if b"content-length" not in header:
                self.inbox.put(None)
                return
            message = json.loads(self.source.read(int(header[b"content-length"])))
            self.checked(message)
            if message["seq"] != self.heard + 1:
                self.bad.append(f"seq {message['seq']} after {self.heard}")
            self.heard = message["seq"]
            self.inbox.put(message)

    def send(self, command, arguments=None):
        """Sends a request; returns its number."""
        self.sent += 1
        message = {"seq": self.sent, "type": "request", "command": command}
        if arguments is not None:
            message["arguments"] = arguments
        self.checked(message, "client: ")
        data = json.dumps(message).encode()
        self.out.write(b"Content-Length: %d\r\n\r\n" % len(data) + data)
        self.out.flush()
        return self.sent

    def answer(self, number, timeout=60):
        """The answer to a request; events before it are kept."""
        while True:
            message = self.inbox.get(timeout=timeout)
            if message is None:
                raise EOFError
            if message["type"] == "event":
                self.events.append(message)
            elif message["request_seq"] == number:
                return message

    def ask(self, command, arguments=None):
        """Sends a request; returns its answer."""
        return self.answer(self.send(command, arguments))

    def body(self, command, arguments=None):
        """Sends a request, which must succeed; returns the body of its answer."""
        answer = self.ask(command, arguments)
        if not answer["success"]:
            raise AssertionError(f"{command}: {answer['message']}")
        return answer.get("body")

    def event(self, name, timeout=60):
        """The body of the next event of this name; skips other events."""
        while True:
            message = self.events.pop(0) if self.events else self.inbox.get(timeout=timeout)
            if message is None:
                raise EOFError
            if message.get("event") == name:
                return message.get("body")

    def move(self, command, **more):
        """Makes a move; returns why it stopped."""
        self.body(command, dict(more, threadId=1))
        return self.event("stopped")

    def begin(self, launch, lines=(), filters=("detected",)):
        """Launches, and sets breakpoints on lines; returns the answer to `launch`."""
        self.body("initialize", {"adapterID": "talft", "clientID": "test", "linesStartAt1": True,
                                 "columnsStartAt1": True, "pathFormat": "path", "supportsInvalidatedEvent": True})
        answer = self.ask("launch", launch)
        if answer["success"]:
            self.event("initialized")
            if lines:
                self.set_lines(launch["program"], [{"line": line} for line in lines])
            self.body("setExceptionBreakpoints", {"filters": list(filters)})
            self.body("configurationDone")
        return answer

    def set_lines(self, path, lines):
        """Sets breakpoints in a file."""
        source = {"path": os.path.abspath(path)}
        return self.body("setBreakpoints", {"source": source, "breakpoints": lines})["breakpoints"]

    def frame(self):
        """The only stack frame."""
        return self.body("stackTrace", {"threadId": 1, "startFrame": 0, "levels": 20})["stackFrames"][0]

    def scope(self, name):
        """The variables of a scope by name, and its reference."""
        scopes = self.body("scopes", {"frameId": self.frame()["id"]})["scopes"]
        reference = {scope["name"]: scope["variablesReference"] for scope in scopes}[name]
        variables = self.body("variables", {"variablesReference": reference})["variables"]
        return {variable["name"]: variable["value"] for variable in variables}, reference

    def evaluate(self, text, context="repl"):
        """The result of an expression or a command."""
        return self.body("evaluate", {"expression": text, "context": context})["result"]

    def end(self):
        """Ends the session; returns the server's status."""
        self.ask("disconnect", {"terminateDebuggee": True})
        if not self.process:
            return 0
        self.out.close()
        return self.process.wait(10)
