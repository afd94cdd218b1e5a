"""The inputs of speed.sh, and its tables. `speed.py inputs FOLDER TALFT` writes the sources, maps and faults of all
rows into the folder, and has the program make their objects and texts. `speed.py table ROWS COUNTS DOCUMENT` puts the
counts into the document's table that begins with `| row |`. `speed.py times ROWS TALFT PLAIN DOCUMENT` runs each row
twenty times with both programs in turn, and puts the medians into the table that begins with `| timed row |`.
"""
import os
import statistics
import subprocess
import sys

sys.dont_write_bytecode = True
from limits_objects import HALT, memory, pair, spell  # noqa: E402

ASSIGNMENTS, CHOICES, VARIABLES = 10_921, 2_900, 20
MODULES, BLOCKS = 8, 1_024
FAULTS, STEPS = 2_048, 15_000
TURNS = 20


def assignments(count):
    return "cell out = 0;\n" + "out = 1;\n" * count


def choices(count):
    return "cell out = 0;\n" + "".join(f"var v{k};\n" for k in range(VARIABLES)) + "if (v0) { v1 = 1; }\n" * count


SOURCES = {
    "assignments": assignments(ASSIGNMENTS),
    "choices": choices(CHOICES),
    "part-assignments": assignments(ASSIGNMENTS // MODULES - 1),
    "part-choices": choices(CHOICES // MODULES - 1),
    "counting": "cell out = 0; var i; while (i < 100000000) { i = i + 1; } out = i;\n",
    "storing": "cell out = 0; var i; while (i < 100000000) { i = i + 1; if ((i & 15) == 0) { out = i; } }\n",
    "often": "cell out = 0; var i; while (i < 100000000) { i = i + 1; out = i; }\n",
    "turns": "var i; while (i < 20000000) { i = i + 1; }\n",
}


def put(name, data):
    with open(name, "wb") as out:
        out.write(data if isinstance(data, bytes) else data.encode())


def drawn(count, most):
    """This many random numbers below a bound, the same ones each time."""
    state = 1
    for _ in range(count):
        state = (state * 6364136223846793005 + 1442695040888963407) % 2**64
        yield (state >> 33) % most


def faults():
    """Strikes at random steps and registers."""
    numbers = drawn(3 * FAULTS, 1 << 30)
    return "".join(f"{next(numbers) % STEPS}:r{next(numbers) % 64}:{next(numbers)}\n" for _ in range(FAULTS))


def write_inputs(folder, talft):
    talft = os.path.abspath(talft)
    os.chdir(folder)

    def made(name, *words):
        put(name, subprocess.run([talft, *words], check=True, stdout=subprocess.PIPE, stdin=subprocess.DEVNULL).stdout)

    for name, text in SOURCES.items():
        put(name + ".src", text)
        made(name + ".obj", "compile", name + ".src")
    made("assignments.asm", "dis", "assignments.obj")
    put("part-blocks.obj", spell(memory(), HALT * BLOCKS, blocks=b"".join(pair(k, 0) for k in range(BLOCKS))))
    for part in "assignments", "choices", "blocks":
        put(part + ".map", f"module part-{part}.obj\n" * MODULES)
    put("faults", faults())


def read_rows(rows):
    with open(rows, encoding="ascii") as lines:
        return [line.strip().split(" ", 1) for line in lines]


def put_table(document, table):
    """Replaces the document's table whose first column has this heading."""
    head = table[0].split("|")[1]
    with open(document, encoding="utf-8") as text:
        lines = text.read().split("\n")
    first = next(k for k, line in enumerate(lines) if line.startswith(f"|{head}|"))
    past = next(k for k in range(first, len(lines)) if not lines[k].startswith("|"))
    lines[first:past] = table
    put(document, "\n".join(lines))


def write_table(rows, counts, document):
    with open(counts, encoding="ascii") as lines:
        counts_of = (line.split() for line in lines if line[0] != "#")
        found = {name: (int(ours), int(plain)) for name, ours, plain in counts_of}
    table = ["| row | words | machine instructions | plain Rust | ratio |", "|---|---|---|---|---|"]
    for name, words in read_rows(rows):
        ours, plain = found[name]
        table.append(f"| {name} | `{words}` | {ours:,} | {plain:,} | {ours / plain if plain else 0:.2f} |")
    put_table(document, table)


def seconds(words):
    """The processor time of one call, in seconds."""
    quiet = [(os.POSIX_SPAWN_OPEN, fd, os.devnull, os.O_RDWR, 0) for fd in range(3)]
    _, _, usage = os.wait4(os.posix_spawnp(words[0], words, os.environ, file_actions=quiet), 0)
    return usage.ru_utime + usage.ru_stime


def write_times(rows, talft, plain, document):
    table = ["| timed row | ours | plain Rust | ratio |", "|---|---|---|---|"]
    for name, words in read_rows(rows):
        pairs = [(seconds([talft, *words.split()]), seconds([*plain.split(), *words.split()])) for _ in range(TURNS)]
        ours, plainly = (statistics.median(times) for times in zip(*pairs))
        table.append(f"| {name} | {ours * 1000:.1f} ms | {plainly * 1000:.1f} ms | {plainly / ours:.2f} |")
        print(table[-1], flush=True)
    put_table(document, table)


{"inputs": write_inputs, "table": write_table, "times": write_times}[sys.argv[1]](*sys.argv[2:])
