"""The rows of limits.py, and what each command says about an object."""
ROWS = {}
OBJECT_COMMANDS = ["check", "run", "trial", "campaign", "survey", "debug", "upgrade", "dis", "schedule", "recover", "link"]
SOURCE_COMMANDS = ["compile", "exec", "mean"]
COMMANDS = ["check", "run", "trial", "campaign", "survey", "debug", "demo", "compile", "exec", "mean", "upgrade", "dis", "asm", "schedule", "recover", "link"]
MIB = 1048576


class Row:
    def __init__(self, what, words, full, unit, make, want, power=1, half=None):
        self.what, self.words, self.unit, self.make, self.want, self.power = what, words, unit, make, want, power
        self.full, self.half = full, full // 2 if half is None else half


def add(name, *parts, **more):
    assert name not in ROWS, name
    ROWS[name] = Row(*parts, **more)


def put(name, data):
    with open(name, "wb") as file:
        file.write(data if isinstance(data, bytes) else data.encode())


def to_length(text, length):
    """Repeats a text up to a length."""
    return (text * (length // len(text) + 1))[:length]


def object_words(command):
    """The words of a command over the object; the fault list and the script have one line."""
    if command in ("campaign", "survey"):
        return [command, "object", "--faults", "faults", "--steps", "100"]
    if command == "link":
        return [command, "map"]
    return [command, "object"]


def put_object(data):
    put("object", data)
    put("faults", "0:r60:6\n")
    put("map", "module object\n")
    put("stdin", "where\n")


def over_objects(name, what, full, unit, make, answers, **more):
    """Adds a row for each of these commands over the same object. An answer is a function of the size."""
    for command, want in answers.items():
        add(f"{name}-{command}", what, object_words(command), full, unit, lambda n: put_object(make(n)), want, **more)


def same(status, line=""):
    return lambda n: (status, line)


def refused(line):
    return {command: same(7, line) for command in OBJECT_COMMANDS}


RUNNING = "at 0 running pcg 1 pcb 1 block 0 index 0"
MASKED = "faults 1 masked 1 detected 0 idle 0 corrupt 0"
IDLE = "faults 1 masked 0 detected 0 idle 1 corrupt 0"
# What each command says about an accepted object that outputs nothing and halts.
HALTS = {"check": same(0, "accepted"), "run": same(0), "trial": same(0), "campaign": same(0, MASKED),
         "survey": same(0, MASKED), "debug": same(0, RUNNING), "upgrade": same(0, None), "dis": same(0, "entry 0"),
         "schedule": same(0, None), "recover": same(0), "link": same(0, None)}


def unaccepted(line, trial=0):
    """What each command says about an object that the checker refuses."""
    return {"check": same(8, line), "run": same(8, line), "trial": same(trial), "campaign": same(8, line),
            "survey": same(0, MASKED), "debug": same(0, RUNNING), "upgrade": same(0, None), "dis": same(0, "entry 0"),
            "schedule": same(8, line), "recover": same(8, line), "link": same(8, line)}
