"""Runs, fault lists and scripts of the debugger."""
from limits_objects import *
from limits_rows import *
from limits_chains import *
from limits_tables import *

# Runs.
LOOP = spell(memory(), mov(1, GREEN, 1, code(0)) + mov(33, BLUE, 1, code(0)) + jump(GREEN, 1) + jump(BLUE, 33))


def storing(cells=1):
    """A loop of eight instructions that stores once per turn."""
    nodes = memory() + word(OUT) + word(1) + upd(0, 1, 2, 0)
    code_of = (mov(0, GREEN, OUT, REF_INT) + mov(32, BLUE, OUT, REF_INT) + mov(2, GREEN, 1) + mov(34, BLUE, 1)
               + store(GREEN, 0, 2) + store(BLUE, 32, 34)
               + mov(1, GREEN, 1, code(0)) + mov(33, BLUE, 1, code(0)) + jump(GREEN, 1) + jump(BLUE, 33, 0, 0, 3))
    return spell(nodes, code_of, cells=cells_of(cells), names=names_of(cells))


def dense():
    """A loop that stores every four steps."""
    nodes = memory() + word(OUT) + word(1) + upd(0, 1, 2, 0)
    code_of = (mov(0, GREEN, OUT, REF_INT) + mov(32, BLUE, OUT, REF_INT) + mov(2, GREEN, 1) + mov(34, BLUE, 1)
               + (store(GREEN, 0, 2) + store(BLUE, 32, 34)) * 32764
               + mov(1, GREEN, 1, code(0)) + mov(33, BLUE, 1, code(0)) + jump(GREEN, 1) + jump(BLUE, 33, 0, 0, 3))
    return spell(nodes, code_of)


STORED = "n%031d 1" % 0
for command in ["run", "trial"]:
    add(f"steps-{command}", "steps of a loop", [command, "object", "--steps", "N"], 10 ** 9, "steps",
        lambda n: put_object(LOOP), same(9))
    add(f"stored-{command}", "steps of a loop that stores", [command, "object", "--steps", "N"], 2 * 10 ** 7, "steps",
        lambda n: put_object(storing()), same(9, STORED))
    add(f"stored-cells-{command}", "steps of a loop that stores, with 1,024 cells", [command, "object", "--steps", "N"],
        2 * 10 ** 7, "steps", lambda n: put_object(storing(1024)), same(9, STORED))
    add(f"dense-{command}", "steps, every fourth of which stores", [command, "object", "--steps", "N"], 10 ** 7, "steps",
        lambda n: put_object(dense()), same(9, "out 1"))


def wild_loads(n):
    put_object(spell(memory(), mov(0, GREEN, 7) + load(GREEN, 1, 0) * n + HALT))


for command, want in [("trial", same(0)), ("survey", same(0, MASKED)), ("debug", same(0, RUNNING))]:
    add(f"wild-{command}", "wild answers of 20 digits", object_words(command) + ["--wild", "ANSWERS"], 4096, "answers",
        wild_loads, want)
add("wild-more", "wild answers, one over the limit", ["trial", "object", "--wild", "ANSWERS"], 4097, "answers", wild_loads,
    lambda n: (2, "usage") if n > 4096 else (0, ""))
add("word", "a word of digits", ["trial", "object", "--steps", "DIGITS"], 131000, "bytes", lambda n: put_object(LOOP),
    same(2, "usage"))
add("many-words", "words", ["trial", "object", "WORDS"], 10000, "words", lambda n: put_object(LOOP), same(2, "usage"))

# Fault lists.
FAULT = "%d:qa%d:%d\n"


def list_row(name, what, full, unit, make, want, steps=100, data=LOOP, commands=("campaign", "survey"), **more):
    def put_both(n):
        put_object(data)
        put("faults", make(n))
    for command in commands:
        add(f"{name}-{command}", what, [command, "object", "--faults", "faults", "--steps", str(steps)], full, unit, put_both,
            want, **more)


def end(masked=0, detected=0, idle=0):
    return 0, f"faults {masked + detected + idle} masked {masked} detected {detected} idle {idle} corrupt 0"


LONG = "18446744073709551615:qv7:18446744073709551615\n"
list_row("idle", "faults that strike nothing, of 46 bytes", 65536, "faults", lambda n: LONG * n, lambda n: end(idle=n))
list_row("detected", "faults that are detected at once", 65536, "faults", lambda n: "0:pcg:9\n" * n, lambda n: end(detected=n))
list_row("kept", "faults before the first of 15,258 steps that are never undone", 65536, "faults", lambda n: "0:r60:6\n" * n,
         lambda n: end(masked=n), 15258)
list_row("late", "faults before the last of 15,258 steps, with stores", 65536, "faults", lambda n: "15257:r60:6\n" * n,
         lambda n: end(masked=n), 15258, storing())
list_row("thousand", "faults before the first of 1,000,000 steps with 1,024 cells", 1000, "faults", lambda n: "0:r60:6\n" * n,
         lambda n: end(masked=n), 10 ** 6, storing(1024))
list_row("dense", "faults before step 0 of 1,000,000 steps; every fourth step stores", 1000, "faults",
         lambda n: "0:r60:6\n" * n, lambda n: end(masked=n), 10 ** 6, dense())
list_row("bad-last", "lines, the last not a strike", 65536, "lines", lambda n: "0:r1:6\n" * (n - 1) + "0:r64:6\n",
         lambda n: (11, f"list 1 {n}"))
list_row("too-many", "lines, one over the limit, and half of that", 65537, "lines", lambda n: "0:r1:6\n" * n,
         lambda n: (11, "list 2 65536") if n > 65536 else end(masked=n), 1)
list_row("too-much", "faults with 1,000,000 steps each", 65536, "faults", lambda n: "0:r1:6\n" * n,
         lambda n: (11, f"list 3 {n * 10 ** 6}"), 10 ** 6)
list_row("long-list", "bytes, one over the limit, and half of that", 4 * MIB + 1, "bytes", lambda n: to_length("\n", n),
         lambda n: (11, "list 2 65536" if n > 4 * MIB else "list 1 1"))
for name, what, text, line in [("empty-lines", "empty lines", "\n", "list 1 1"), ("one-line", "a line of digits", "1", "list 1 1"),
                               ("zeros-list", "zero bytes", "\0", "list 1 1")]:
    list_row(name, what, 4 * MIB, "bytes", lambda n, text=text: to_length(text, n), same(11, line))


# Scripts.
def script_row(name, what, unit_text, want, data=LOOP, full=MIB, unit="bytes", make=None):
    def put_both(n):
        put_object(data)
        put("stdin", make(n) if make else to_length(unit_text, n))
    add(f"script-{name}", what, ["debug", "object"], full, unit, put_both, want)


def repeated(name, text, want):
    """A script of whole lines, as many as the size has room for."""
    shown = "`, `".join(text.split("\n")[:-1])
    script_row(name, f"the lines `{shown}`" if shown else "empty lines", text, want,
               make=lambda n: text * (n // len(text)))


repeated("step", "step 1\n", lambda n: (0, f"at {n // 7} running"))
repeated("step-0", "step 0\n", same(0, "at 0 running"))
repeated("go", "go 1\n", lambda n: (0, f"at {n // 5} running"))
repeated("back", "back 1\n", same(0, "no history"))
repeated("to-and-fro", "step 1\nback 1\n", same(0, "at 0 running"))
repeated("zap", "zap r0 1\n", same(0, "zapped"))
repeated("zap-nothing", "zap qa7 1\n", same(0, "nothing there"))
repeated("reg", "reg r0\n", same(0, "r0 G 0"))
repeated("queue", "queue\n", same(0, "empty"))
repeated("cell", "cell out\n", same(0, "out 0"))
repeated("no-cell", "cell other\n", same(0, "no cell"))
repeated("where", "where\n", same(0, RUNNING))
repeated("break", "break 0 0\n", same(0, "break set"))
repeated("no-place", "break 9 9\n", same(0, "no place"))
repeated("bad", "x\n", same(0, "bad command"))
repeated("empty", "\n", same(0, "bad command"))
script_row("zeros", "zero bytes", "\0", same(0, "bad command"))
script_row("digits", "a line of digits", "1", same(0, "bad command"))
script_row("spaces", "spaces", " ", same(0, "bad command"))
script_row("long", "bytes, one over the limit, and half of that", "\n",
           lambda n: (11, "list 4 1048576") if n > MIB else (0, "bad command"), full=MIB + 1)
script_row("far", "lines `step 1000000`", "", lambda n: (0, f"at {n * 10 ** 6} running"), full=20, unit="lines",
           make=lambda n: "step 1000000\n" * n)
script_row("far-cells", "lines `step 1000000` over a loop that stores, with 1,024 cells", "",
           lambda n: (0, f"at {n * 10 ** 6} running"), data=storing(1024), full=4, unit="lines",
           make=lambda n: "step 1000000\n" * n)
script_row("dense", "lines `step 1000000`, every fourth step stores", "", lambda n: (0, f"at {n * 10 ** 6} running"), data=dense(),
           full=10, unit="lines", make=lambda n: "step 1000000\n" * n)
script_row("history", "times 4,096 steps forward and back, with 1,024 cells", "", same(0, "at 0 running"), data=storing(1024),
           full=100, unit="turns", make=lambda n: "step 4096\nback 4096\n" * n)
MANY = spell(memory(), b"".join(mov(k % 32, GREEN, k) for k in range(65535)) + HALT)
script_row("breaks", "times `go 4000` and back, with 64 breakpoints", "", same(0, "at 0 running"), data=MANY, full=1000,
           unit="times", make=lambda n: "".join(f"break 0 {5000 + k}\n" for k in range(64)) + "go 4000\nback 4000\n" * n)
