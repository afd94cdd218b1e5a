"""What the tests of many programs share: a call of tools/cc with the test of places.py, the lines of an object, and
the counts of outcomes."""
import os
import subprocess
import tempfile

here = os.path.dirname(os.path.abspath(__file__))
top = os.path.join(here, "..", "..")
TALFT = os.environ.get("TALFT", os.path.join(top, "talft"))
CC = os.path.join(here, "places.py")
LEVELS = "-O0", "-O1", "-O2", "-O3", "-Os", "-Oz"


def ran(*words, **more):
    return subprocess.run(words, stdout=subprocess.PIPE, stderr=subprocess.PIPE, text=True, **more)


def compiled(source, level, made, *words, stack=1024):
    """The outcome of tools/cc in a word, and its message; or None if the object is verified."""
    done = ran(CC, source, level, *words, "--stack", str(stack), "-o", made)
    said = done.stderr.strip().splitlines()[-1] if done.stderr.strip() else ""
    if done.returncode:
        return ("clang refuses" if "clang cannot compile" in said else "wrong" if "report it" in said else "refused"), said
    return None if "; verified: " in done.stderr else ("not verified", said)


def lines_of(made, names):
    """The lines that an object's run writes for cells with these names."""
    lines = ran(TALFT, "run", made, "--steps", "1000000").stdout.splitlines()
    return [line for line in lines if line.split(" ")[0] in names]


def try_each(tried, numbers):
    """Prints what is wrong with each, and the number of each outcome."""
    counts = {}
    with tempfile.TemporaryDirectory() as folder:
        for number in numbers:
            level = LEVELS[number % len(LEVELS)]
            word, why = tried(number, level, folder)
            counts[word] = counts.get(word, 0) + 1
            if why:
                print(f"{number} {level}: {word}: {why[-300:]}", flush=True)
    print(f"{len(numbers)} programs: " + ", ".join(f"{word} {n}" for word, n in sorted(counts.items())))
