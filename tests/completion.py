#!/usr/bin/env python3
"""Completes words in bash on a terminal: python3 tests/completion.py COMPLETION_FILE FOLDER. Each line is typed with a
tab at its end, and the shell prints the completed line. The status is 1 if a line is not as expected."""
import os
import pty
import select
import sys
import time

# What is typed, and what it becomes.
LINES = [
    ("talft tri", "talft trial "),
    ("talft run fi", "talft run five.obj "),
    ("talft run five.obj --fau", "talft run five.obj --fault "),
    ("talft run five.obj --fault 4:qa3", "talft run five.obj --fault 4:qa3:"),
    ("talft run five.obj --fault 10:pcg", "talft run five.obj --fault 10:pcg:"),
    ("talft run five.obj --wild 7,s", "talft run five.obj --wild 7,stop "),
    ("talft campaign five.obj --faults fi", "talft campaign five.obj --faults five.faults "),
    ("talft mean su", "talft mean sum.src "),
]


def main(completions, folder):
    # The terminal is wide enough for a whole line.
    child, terminal = pty.fork()
    if child == 0:
        os.chdir(folder)
        os.execvpe("bash", ["bash", "--norc", "--noprofile", "-i"], {**os.environ, "TERM": "dumb", "COLUMNS": "200", "PS1": "> "})

    def read(until, seconds=10):
        said, end = b"", time.time() + seconds
        while until not in said and time.time() < end:
            if select.select([terminal], [], [], 0.1)[0]:
                said += os.read(terminal, 65536)
        return said.decode(errors="replace")

    def send(text):
        os.write(terminal, text.encode())

    # `talft` prints its words, each in brackets.
    send(f". '{completions}'; talft() {{ printf '[%s]' \"$@\"; echo; }}; bind 'set bell-style none'; echo read''y\n")
    read(b"ready")
    wrong = 0
    for typed, wanted in LINES:
        send(f"{typed}\t")
        time.sleep(0.3)
        send("\n")
        words = "".join(f"[{it}]" for it in wanted.split()[1:])
        if words.encode() not in read(words.encode(), 5).encode():
            wrong += 1
            print(f"<{typed}> does not become <{wanted}>")
    send("exit\n")
    os.waitpid(child, 0)
    print(f"{len(LINES)} lines, {wrong} wrong")
    return 1 if wrong else 0


if __name__ == "__main__":
    sys.exit(main(os.path.abspath(sys.argv[1]), sys.argv[2]))
