"""Rows for tests/rows.py whose files are generated: altered objects, long texts, and outputs to be compared."""
import struct

# The object that stores 5, as an assembly text.
FIVE = b"""cell out int 0
node 0 memory
type 0 0
block 0
mov r0 G 1048576 ref:int
mov r1 G 5 int
mov r32 B 1048576 ref:int
mov r33 B 5 int
st_G r0 r1
st_B r32 r33
halt
entry 0
"""

FIBONACCI = b"""cell out = 0;
var a; var b; var t; var i;
b = 1;
while (i < 10) { out = a; t = a + b; a = b; b = t; i = i + 1; }
"""
NUMBERS = b"".join(b"out %d\n" % n for n in (0, 1, 1, 2, 3, 5, 8, 13, 21, 34))

SOURCES = [
    b"",
    b"cell out = 0; out = 7;",
    b"cell c = 18446744073709551615;",
    b"cell _a1 = 3; cell b = 4; var x; x = _a1; if (x == 3) { b = x * x - 1; } else { _a1 = b; }",
    b"var x; while (0) { x = 1; }",
    FIBONACCI,
    b"cell a[3] = 0; var i; while (i < 4) { a[i] = i ^ 5; i = i + 1; }",
]

# Modules for links. The first jumps to its second block, which consists of `halt` alone.
MODULES = {
    "m": "node 0 memory|type 0 0|block 0|mov r1 G 5 code:0|mov r33 B 5 code:0|jmp_G r1|jmp_B r33 0|block 0|halt",
    # Its second block keeps a register as green `int` 5.
    "t": "node 0 memory|node 0 word 5|type 0 0|type 0 0|reg r2 G int 1|block 0|halt|block 1|halt",
    # It stores its own code address.
    "s": "node 0 memory|type 0 0|block 0|mov r0 G 1048576 ref:int|mov r1 G 1 code:0|mov r32 B 1048576 ref:int|"
    "mov r33 B 1 code:0|st_G r0 r1|st_B r32 r33|halt",
    # A register row has the type of a code address.
    "r": "node 0 memory|node 0 word 1|type 0 0|reg r2 G code:0 1|type 0 0|block 1|halt",
}

# Refused maps, with output and status.
MAPS = [
    (b"module m\nimport go 1\nmodule A\n", b"link 9 2\n", 13),
    (b"module m\nimport go 0\nmodule A\nexport go 0\n", b"link 8 2\n", 13),
    (b"import go 1\n", b"link 1 1\n", 13),
    (b"", b"link 1 1\n", 13),
    (b"module A\n\n", b"link 1 2\n", 13),
    (b"module  A\n", b"link 1 1\n", 13),
    (b"module A\nexport go 00\n", b"link 1 2\n", 13),
    (b"module A\nexport go 0\nexport go 0\n", b"link 2 3\n", 13),
    (b"module m\nimport go 1\nexport back 1\nmodule A\nexport go 0\n", b"link 2 3\n", 13),
    (b"module A\nmodule X\n", b"link 3 1\n", 13),
    (b"module A\nmodule r\n", b"link 4 1\n", 13),
    (b"module A\nmodule s\n", b"link 5 1 0 4\n", 13),
    (b"module A\nexport go 1\n", b"link 7 2\n", 13),
    (b"module m\nimport go 1\nmodule t\nexport go 1\n", b"link 10 2\n", 13),
    (b"module A2\nmodule X\n", b"check block 0 index 3 premise 2\n", 8),
    (b"module A\nmodule text\n", b"object 1 0\n", 7),
    (b"module missing\n", b"", 3),
    (b"module A\nmodule missing\n", b"", 3),
    (b"module A\nmodule X\nmodule missing\n", b"link 3 1\n", 13),
    (b"module A\n" * 7282, b"link 11 65536\n", 13),
]

# Altered bytes of `A`: the place, the new byte and the output.
ALTERED = [
    (0, 0x55, b"object 1 0\n"),
    (7, 0x03, b"object 1 0\n"),
    (10, 0x04, b"object 3 8\n"),  # 1,025 cells
    (67, 0x01, b"object 4 67\n"),
    (104, 0x08, b"object 5 104\n"),
    (64, 0x02, b"object 6 68\n"),  # a node that refers to itself
    (99, 0x01, b"object 7 96\n"),
    (216, 0x30, b"object 8 216\n"),
    (47, 0x01, b"object 9 44\n"),
]

# Objects that the checker refuses, by the premise that they break: the object, its changes and the output.
REFUSED = [
    ("A", [(53, 1)], b"check cell 0\n"),
    ("A", [(92, 1)], b"check entry\n"),
    ("A", [(170, 9)], b"check block 0 index 4 premise 1\n"),
    ("A", [(124, 1)], b"check block 0 index 1 premise 3\n"),
    ("A", [(169, 1), (170, 0)], b"check block 0 index 4 premise 4\n"),
    ("A", [(168, 5), (169, 1), (170, 0)], b"check block 0 index 4 premise 5\n"),
    ("J", [(248, 2), (249, 9)], b"check block 0 index 5 premise 6\n"),
    ("A", [(168, 2), (169, 2), (170, 0)], b"check block 0 index 5 premise 8\n"),
    ("P9", [], b"check block 0 index 5 premise 9\n"),
    ("K", [(215, 6)], b"check block 0 index 5 premise 11\n"),
    ("J", [(239, 0), (247, 1)], b"check block 0 index 5 premise 12\n"),
    ("J", [(215, 6)], b"check block 0 index 5 premise 13\n"),
    ("A", [(184, 2), (185, 2), (186, 0), (187, 0)], b"check block 0 index 6 premise 14\n"),
    ("P15", [], b"check block 0 index 9 premise 15\n"),
    ("P16", [], b"check block 0 index 5 premise 16\n"),
    ("P17", [], b"check block 0 index 5 premise 17\n"),
    # The second cell has the type `ref int`, and the address of the first one.
    ("I", [(68, 1), (77, 0x10)], b"check block 0 index 1 premise 18\n"),
]


def altered(content, *changes):
    """The bytes with other bytes at these places."""
    made = bytearray(content)
    for place, byte in changes:
        made[place] = byte
    return bytes(made)


def over(calls, name, content, rows):
    """Compares rows over one file."""
    calls.add(name, content)
    for words, text, status in rows:
        calls.expect(words.split(), text, status)


def no_objects(calls):
    """Bytes that do not spell an object."""
    commands = [f"{command} file" for command in ("check", "trial", "upgrade")]
    first = calls.objects["A"]
    files = [(first[:n], b"object 2 %d\n" % n) for n in range(len(first))]
    files.append((first + b"\0", b"object 2 219\n"))
    files += [(altered(first, (place, byte)), text) for place, byte, text in ALTERED]
    for content, text in files:
        over(calls, "file", content, [(words, text, 7) for words in commands])
    over(calls, "file", altered(calls.objects["I"], (7, 1)), [("check file", b"object 5 152\n", 7)])
    over(calls, "file", b"abc", [("dis file", b"object 2 3\n", 7)])


def refusals(calls):
    """A row for each premise of the checker."""
    for name, changes, text in REFUSED:
        over(calls, "file", altered(calls.objects[name], *changes), [("check file", text, 8)])


def assemblies(calls):
    """Texts that are read and written."""
    first = calls.objects["A"]
    over(calls, "file", first, [("dis file", FIVE, 0)])
    over(calls, "file", FIVE, [("asm file", altered(first, (7, 2)), 0)])
    for content, text, status in [
        (b"cel out int 0\nentry 0\n", b"asm 1 1\n", 12),
        (FIVE.replace(b"entry 0\n", b""), b"asm 2 12\n", 12),
        (FIVE.replace(b"node 0", b"node 5"), b"object 6 88\n", 7),
        (b"", b"asm 2 1\n", 12),
        (b"entry 0\nhalt\n", b"asm 2 2\n", 12),
    ]:
        over(calls, "file", content, [("asm file", text, status)])


def upgrades(calls):
    """Objects that are written in version 2."""
    for name in ("A", "A2", "I", "J", "K"):
        second = altered(calls.objects[name], (7, 2))
        over(calls, "file", calls.objects[name], [("upgrade file", second, 0)])
        over(calls, "file", second, [("upgrade file", second, 0)])
    runs = [("check file", b"accepted\n", 0), ("run file", b"out 5\n", 0), ("run file --fault 4:r1:6", b"", 1)]
    over(calls, "file", altered(calls.objects["A"], (7, 2)), runs)


def schedules(calls):
    """Schedules, which have the instructions in another order."""
    for name, order, outputs in [
        ("A", [0, 1, 4, 2, 3, 5, 6], b"out 5\n"),
        ("Q", [0, 1, 2, 6, 7, 8, 12, 3, 4, 5, 9, 10, 11, 13, 14], b"out 5\nout 6\nout 6\n"),
    ]:
        first = altered(calls.objects[name], (7, 2))
        instructions = [first[104 + 16 * i : 120 + 16 * i] for i in order]
        wanted = first[:104] + b"".join(instructions) + first[104 + 16 * len(order) :]
        over(calls, "file", calls.objects[name], [("schedule file", wanted, 0)])
        over(calls, "file", wanted, [("run file", outputs, 0)])


def links(calls):
    """Modules that are linked, and maps and modules that are refused."""
    for name, text in MODULES.items():
        lines = ["cell out int 0", *text.split("|"), "entry 0", ""]
        calls.add("text", "\n".join(lines).encode())
        written, status = calls.answer(["asm", "text"])
        calls.count(status == 0, f"asm of module {name} answers {status}")
        calls.add(name, written)
    calls.add("map", b"module m\nimport go 1\nmodule A\nexport go 0\n")
    linked, status = calls.answer(["link", "map"])
    # Version 2, and 12 instructions.
    instructions = struct.unpack_from(">I", linked, 32)[0]
    calls.count(status == 0 and linked[7] == 2 and instructions == 12, "link of two modules")
    over(calls, "file", linked, [("check file", b"accepted\n", 0)])
    over(calls, "file", linked, [("run file --steps 22", b"out 5\n", 0), ("run file --steps 21", b"out 5\n", 9)])
    for content, text, status in MAPS:
        over(calls, "map", content, [("link map", text, status)])


def campaigns(calls):
    """Lists at their limits, every site before every step, and the faults of a demonstration."""
    for command in ("campaign", "survey"):
        over(calls, "list", b"4:r1:6\n" * 1001, [(f"{command} A --faults list", b"list 3 1001000000\n", 11)])
    ends(calls, b"4:r1:6\n" * 1000, "campaign A --faults list", b"\nfaults 1000 masked 0 detected 1000 idle 0 corrupt 0\n")
    sites = [f"r{n}" for n in range(64)] + [f"q{part}{n}" for part in "av" for n in range(8)] + ["d", "pcg", "pcb"]
    for name, steps in (("A", 14), ("J", 22)):
        faults = [f"{step}:{site}:{word}\n" for step in range(steps) for word in (0, 8, 1048576) for site in sites]
        ends(calls, "".join(faults).encode(), f"campaign {name} --steps {steps} --faults list", b" corrupt 0\n")
    end = b"faults 64 masked 62 detected 2 idle 0 corrupt 0\n"
    ends(calls, b"", "demo 100", end)
    first, second = calls.answer(["demo", "10921"]), calls.answer(["demo", "10921"])
    holds = first == second and first[0].startswith(b"outputs 10921 last ") and first[0].endswith(end)
    calls.count(holds, "demo 10921, twice")


def ends(calls, faults, words, end):
    """Compares the end of the output over a list of faults."""
    calls.add("list", faults)
    written, status = calls.answer(words.split())
    calls.count(status == 0 and written.endswith(end), f"{words} answers {status} and ends {written[-80:]!r}")


def sources(calls):
    """Sources at the limits of their length, depth, names and weight."""
    names = [f"n{n}" for n in range(1025)]
    heaviest = b"cell out = 0;" + b"out = 7;" * 10921
    refused = [
        (b"var x; x = " + b"(" * 101, b"source 5 111\n"),
        (heaviest + b"out = 7;", b"source 10 65537\n"),
        (b" " * 1048577, b"source 1 1048576\n"),
        ("".join(f"cell {name} = 0;" for name in names).encode(), b"source 8 1025\n"),
        ("".join(f"var {name};" for name in names[:31]).encode() + b"n0 = 1;", b"source 9 33\n"),
    ]
    for content, text in refused:
        over(calls, "file", content, [(f"{command} file", text, 6) for command in ("mean", "compile", "exec")])
    most_names = "".join(f"var {name};" for name in names[:30]).encode() + b"n0 = 1;"
    for content in (b" " * 1048576, most_names):
        over(calls, "file", content, [("mean file", b"", 0), ("exec file", b"", 0)])
    over(calls, "file", heaviest, [("mean file", b"out 7\n" * 10921, 0)])
    written, status = calls.answer(["compile", "file"])
    calls.count(status == 0 and written.startswith(b"TALFT"), f"compile of the greatest weight answers {status}")


def compiled(calls):
    """Compiled objects: they are accepted, `upgrade` does not change them, and they run as `exec` does."""
    for source in SOURCES:
        calls.add("file", source)
        written, _ = calls.answer(["compile", "file"])
        over(calls, "object", written, [("check object", b"accepted\n", 0), ("upgrade object", written, 0)])
    calls.add("file", FIBONACCI)
    calls.add("object", calls.answer(["compile", "file"])[0])
    calls.expect(["run", "object", "--fault", "0:pcg:0"], b"", 1)
    for steps in range(200):
        more = ["--steps", str(steps)]
        executed, run = calls.answer(["exec", "file", *more]), calls.answer(["run", "object", *more])
        calls.count(executed == run, f"exec and run of {steps} steps")
    for step in range(200):
        words = ["run", "object", "--fault", f"{step}:r0:99"]
        got = calls.answer(words)
        masked, detected = got == (NUMBERS, 0), got[1] == 1 and NUMBERS.startswith(got[0])
        calls.count(masked or detected, f"{' '.join(words)} answers {got[1]}")
    endless(calls)


def endless(calls):
    """An endless loop is cut, and writes the first numbers."""
    calls.add("file", b"cell out = 0; while (1) { out = out + 1; }")
    written, status = calls.answer(["exec", "file", "--steps", "1000"])
    counting = b"".join(b"out %d\n" % n for n in range(1, 1000))
    holds = status == 9 and counting.startswith(written) and written.endswith(b"\n") and written.count(b"\n") >= 6
    calls.count(holds, f"exec of an endless loop answers {status}")


def compare(calls):
    """Compares all rows of this module."""
    calls.expect([], b"usage\n", 2)
    calls.expect([""], b"usage\n", 2)
    calls.expect(["trial", ""], b"", 3)
    script = b"\n" * 1048577
    calls.expect(["debug", "A"], b"list 4 1048576\n", 11, script)
    for rows in (no_objects, refusals, assemblies, upgrades, schedules, links, campaigns, sources, compiled):
        rows(calls)
