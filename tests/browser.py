#!/usr/bin/env python3
"""Opens a page in headless Chromium, evaluates the lines of standard input, and writes each result.

    python3 tests/browser.py PAGE [PICTURE] <SCRIPT

Each line is a JavaScript expression; its value is written as text. A line `width N` makes the window N pixels wide. The
last line is the number of errors in the console, which go to standard error. PICTURE gets a PNG of the page."""
import base64
import json
import os
import subprocess
import sys
import tempfile

NAMES = ("chromium", "chromium-browser", "google-chrome")


class Browser:
    """A browser, driven over two pipes by JSON texts, each ended by a zero byte."""

    def __init__(self, name, folder):
        take, their_out = os.pipe()
        their_in, give = os.pipe()
        words = [name, "--headless", "--window-size=1280,1000", "--disable-gpu", "--no-first-run",
                 "--remote-debugging-pipe", f"--user-data-dir={folder}",
                 *(["--no-sandbox"] if os.getuid() == 0 else []), "about:blank"]
        shell = ["bash", "-c", f'exec 3<&{their_in} 4>&{their_out}; exec "$@"', "browser"]
        self.process = subprocess.Popen(shell + words, pass_fds=(their_in, their_out),
                                        stdout=subprocess.DEVNULL, stderr=subprocess.DEVNULL)
        os.close(their_in)
        os.close(their_out)
        self.take, self.give = os.fdopen(take, "rb"), os.fdopen(give, "wb")
        self.count, self.page, self.events, self.kept = 0, None, [], b""

    def message(self):
        """The next text that the browser sends."""
        while b"\0" not in self.kept:
            some = self.take.read1(1 << 20)
            if not some:
                sys.exit("browser: it exited")
            self.kept += some
        text, self.kept = self.kept.split(b"\0", 1)
        return json.loads(text)

    def ask(self, method, **words):
        """Sends a request and waits for its answer; other messages are kept."""
        self.count += 1
        question = {"id": self.count, "method": method, "params": words}
        self.give.write(json.dumps(question | ({"sessionId": self.page} if self.page else {})).encode() + b"\0")
        self.give.flush()
        while (message := self.message()).get("id") != self.count:
            self.events.append(message)
        if "error" in message:
            sys.exit(f"browser: {method}: {message['error']['message']}")
        return message["result"]

    def wait_for(self, method):
        while not any(event.get("method") == method for event in self.events):
            self.events.append(self.message())

    def errors(self):
        """The errors in the console, and uncaught exceptions."""
        for event in self.events:
            of, told = event.get("method"), event.get("params", {})
            if of == "Runtime.exceptionThrown":
                details = told["exceptionDetails"]
                yield details["text"] + " " + details.get("exception", {}).get("description", "")
            elif of == "Log.entryAdded" and told["entry"]["level"] == "error":
                yield told["entry"]["text"]
            elif of == "Runtime.consoleAPICalled" and told["type"] in ("error", "assert"):
                yield json.dumps(told["args"])


def main(page, picture=None):
    name = next((name for name in NAMES if any(os.access(os.path.join(at, name), os.X_OK)
                                               for at in os.get_exec_path())), None)
    if not name:
        sys.exit("browser: no Chromium is installed")
    with tempfile.TemporaryDirectory(ignore_cleanup_errors=True) as folder:
        browser = Browser(name, folder)
        target = browser.ask("Target.createTarget", url="about:blank")["targetId"]
        browser.page = browser.ask("Target.attachToTarget", targetId=target, flatten=True)["sessionId"]
        for domain in ("Page", "Runtime", "Log"):
            browser.ask(domain + ".enable")
        browser.ask("Page.navigate", url="file://" + os.path.abspath(page))
        browser.wait_for("Page.loadEventFired")
        for line in sys.stdin:
            if line.startswith("width "):
                browser.ask("Emulation.setDeviceMetricsOverride", width=int(line[6:]), height=1000, deviceScaleFactor=1,
                            mobile=False)
                continue
            answer = browser.ask("Runtime.evaluate", expression=line, returnByValue=True, awaitPromise=True)
            print(answer["exceptionDetails"]["text"] if "exceptionDetails" in answer else answer["result"].get("value"))
        if picture:
            with open(picture, "wb") as out:
                out.write(base64.b64decode(browser.ask("Page.captureScreenshot", captureBeyondViewport=True)["data"]))
        errors = list(browser.errors())
        print(f"{len(errors)} errors")
        for error in errors:
            print(error, file=sys.stderr)
        browser.page = None
        browser.ask("Browser.close")
        browser.process.wait()


if __name__ == "__main__":
    main(*sys.argv[1:])
