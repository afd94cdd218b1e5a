#!/usr/bin/env -S python3 -B
"""Compares the runs of compiled objects whose cells begin with other words with what their sources mean with these words.

    other_words.py PROGRAM [--sources N] [--first N] [--seed N] [--jobs N] [--keep FOLDER]

For each random source, the lines of four must agree: the object that `compile` wrote and `talft-set` changed, run until the
step at which the promise says that it is done; the same, cut earlier; the evaluator beside this script; and `mean` for the
text with these words. The object of the changed text must be the changed object, byte for byte. Of a source that is damaged or
beyond a limit, the refusals must agree. A source is made again by its number and the seed."""
import argparse
import collections
import functools
import importlib.machinery
import importlib.util
import itertools
import multiprocessing
import os
import random
import shutil
import subprocess
import sys
import tempfile

from evaluator import Meaning, Program, Refused
from sources import Source, some_word, spelled

TOP = os.path.dirname(os.path.dirname(os.path.dirname(os.path.abspath(__file__))))
TURNS = [0, 1, 2, 5, 20, 100, 1000]
MOST_WORK = 10_000
# As many sources are one portion of a process.
PORTION = 20
ENDED, REFUSED, CUT = 0, 6, 9


def loaded_set():
    """The script `tools/set` as a module."""
    sys.path.insert(0, os.path.join(TOP, "tools"))
    loader = importlib.machinery.SourceFileLoader("talft_set", os.path.join(TOP, "tools", "set"))
    module = importlib.util.module_from_spec(importlib.util.spec_from_loader("talft_set", loader))
    loader.exec_module(module)
    return module


class Different(Exception):
    """Two answers that should agree."""


class Trial:
    """One source with other words: the files of its folder, and what each way answered."""

    def __init__(self, program, set_words, folder, seed, number):
        self.program, self.set_words, self.folder = program, set_words, folder
        self.random = random.Random(f"{seed}:{number}")
        self.counts = collections.Counter(sources=1)
        self.source = Source(self.random)

    def path(self, name):
        return os.path.join(self.folder, name)

    def put(self, name, content):
        with open(self.path(name), "wb") as file:
            file.write(content)

    def call(self, *words, keep=None):
        """The status and output of the program; the output is kept in a file."""
        run = subprocess.run([self.program, *words], stdin=subprocess.DEVNULL, stdout=subprocess.PIPE, stderr=subprocess.DEVNULL)
        self.put(keep, run.stdout)
        return run.returncode, run.stdout

    def compare(self):
        self.put("source", self.source.text())
        status, output = self.call("compile", self.path("source"), keep="object")
        program = self.parsed(self.source.text(), "compile", status, output)
        if program is None:
            return
        self.same("compile", ENDED, status)
        if self.source.damaged:
            self.counts["damaged, but a program"] += 1
            return
        self.choose(program)
        self.put("words", "".join(f"{name} {word}\n" for name, word in self.words.items()).encode())
        self.turns = self.random.choice(TURNS)
        meaning = Meaning(program, self.words, self.turns, MOST_WORK)
        lines = list(meaning)
        self.put("lines", self.joined(lines))
        before = Meaning(program, {cell: program.words[name] for cell, name in program.cells()}, meaning.turns, MOST_WORK)
        self.counts.update(ended=meaning.ended, cut=not meaning.ended, lines=len(lines), work=meaning.work)
        self.counts["other lines than before"] += list(before) != lines
        self.set()
        self.run(program, meaning, lines)
        self.mean(meaning, lines)

    @staticmethod
    def joined(lines):
        return "".join(line + "\n" for line in lines).encode()

    def parsed(self, text, command, status, output):
        """The program of a text, or None if it is refused: then the command must refuse it likewise."""
        try:
            program = Program(text)
        except Refused as error:
            self.counts[f"refused as {error.args[0]:02}"] += 1
            wanted = f"source {error.args[0]} {error.args[1]}\n".encode()
            if (status, output) != (REFUSED, wanted):
                raise Different(f"{command}: wanted {wanted!r}, got status {status}, {output[:60]!r}") from error
            return None
        if status == REFUSED:
            raise Different(f"{command}: refused: {output!r}")
        return program

    def choose(self, program):
        """Chooses other words. If those of each array are alike, they stand in the declarations of the changed text. If not,
        it assigns them to the arrays before its first statement, which adds lines."""
        self.alike = self.random.random() < 0.5 or all(length in (None, 1) for length in program.lengths.values())
        shared = {name: some_word(self.random) for name in program.words}
        plain, self.first_lines = dict(shared), []
        self.words = {}
        for cell, name in program.cells():
            self.words[cell] = shared[name] if name == cell or self.alike else some_word(self.random)
            if name != cell and not self.alike:
                self.first_lines.append(f"{cell} {self.words[cell]}")
                plain.pop(name, None)
        self.changed = self.source.text(plain, [line.replace(" ", "=") + ";" for line in self.first_lines])
        self.put("changed", self.changed)
        self.counts["in declarations"] += self.alike

    def set(self):
        """Changes the object with `talft-set`: the words are arguments, or some are the last lines of a run."""
        given, words = dict(self.words), []
        if self.random.random() < 0.3:
            some = [name for name in given if self.random.random() < 0.7]
            self.put("run before", "".join(f"{name} {word}\n" for name in some for word in (7, given.pop(name))).encode())
            words += ["--from", self.path("run before")]
        words += [f"{name}={spelled(self.random, word)}" for name, word in given.items()]
        self.set_words([self.path("object"), *words, "-o", self.path("set")])
        if self.alike:
            _, compiled = self.call("compile", self.path("changed"), keep="changed object")
            with open(self.path("set"), "rb") as file:
                if file.read() != compiled:
                    raise Different("the object of the changed text is not the changed object")

    def run(self, program, meaning, lines):
        """Runs the changed object for as many steps as it may take, and again for fewer."""
        steps = 16 * meaning.work + 320
        status, output = self.call("run", self.path("set"), "--steps", str(steps), keep="run")
        if meaning.ended:
            self.same("run", (ENDED, self.joined(lines)), (status, output))
        else:
            self.same("run, as far as the meaning goes", self.joined(lines), output[:len(self.joined(lines))])
            self.begins("run", program, steps, status, output)
        fewer = self.random.choice([0, 1, self.random.randrange(steps), self.random.randrange(steps)])
        status, cut = self.call("run", self.path("set"), "--steps", str(fewer), keep="cut run")
        self.same("cut run", output[:len(cut)], cut)
        self.begins("cut run", program, fewer, status, cut)
        self.counts["cut runs"] += status == CUT

    def begins(self, what, program, steps, status, output):
        """Of a run that is cut after some steps, the lines begin the meaning with as many turns; otherwise they are all of it."""
        meaning = Meaning(program, self.words, steps, 64 * steps + 1000)
        if status == CUT:
            self.same(what, self.joined(itertools.islice(meaning, output.count(b"\n"))), output)
        else:
            lines = self.joined(meaning)
            self.same(what, (ENDED, lines, True), (status, output, meaning.ended))

    def mean(self, meaning, lines):
        """Compares `mean` for the text with these words, with just as many turns as the evaluator used, if it had them."""
        turns = min(meaning.turns, self.turns)
        status, output = self.call("mean", self.path("changed"), "--turns", str(turns), keep="mean")
        if not self.parsed(self.changed, "mean", status, output):
            return
        self.same("mean", (ENDED if meaning.ended else CUT, self.joined(self.first_lines + lines)), (status, output))
        self.counts["means"] += 1

    @staticmethod
    def same(what, wanted, got):
        if wanted == got:
            return
        told = []
        for answer in wanted, got:
            parts = answer if isinstance(answer, tuple) else (answer,)
            told.append((b"".join(part for part in parts if isinstance(part, bytes)).decode().splitlines(),
                         [part for part in parts if not isinstance(part, bytes)]))
        (first, status), (second, other) = told
        place = next((at for at, pair in enumerate(zip(first, second)) if pair[0] != pair[1]), min(len(first), len(second)))
        shown = [repr(lines[place]) if place < len(lines) else "no line" for lines in (first, second)]
        raise Different(f"{what}: line {place + 1}: wanted {shown[0]} {status}, got {shown[1]} {other}")


def portion(asked, first):
    """Compares some sources: the counts, and a message for each difference."""
    os.environ.update(TALFT=asked.program, TALFT_EXPLAIN="0")
    tool = loaded_set()

    def set_words(words):
        try:
            tool.main(words)
        except tool.Refused as error:
            raise Different(f"talft-set: {error}") from error

    counts, told = collections.Counter(), []
    for number in range(first, min(first + PORTION, asked.first + asked.sources)):
        with tempfile.TemporaryDirectory() as folder:
            trial = Trial(asked.program, set_words, folder, asked.seed, number)
            try:
                trial.compare()
            except Different as error:
                kept = os.path.join(asked.keep, f"seed-{asked.seed}-source-{number}")
                shutil.copytree(folder, kept, dirs_exist_ok=True)
                told.append(f"seed {asked.seed} source {number}: {error}; kept in {kept}")
            counts.update(trial.counts)
    return counts, told


def answers(asked):
    """What the portions give, in their order."""
    compared = functools.partial(portion, asked)
    firsts = range(asked.first, asked.first + asked.sources, PORTION)
    if asked.jobs == 1:
        yield from map(compared, firsts)
        return
    with multiprocessing.Pool(asked.jobs) as pool:
        yield from pool.imap(compared, firsts)
        pool.close()
        pool.join()


def main():
    parser = argparse.ArgumentParser(description=__doc__.splitlines()[0])
    parser.add_argument("program", metavar="PROGRAM")
    parser.add_argument("--sources", type=int, default=100, metavar="N", help="how many sources")
    parser.add_argument("--first", type=int, default=0, metavar="N", help="the number of the first")
    parser.add_argument("--seed", type=int, default=1, metavar="N", help="other sources")
    parser.add_argument("--jobs", type=int, default=1, metavar="N", help="processes at once")
    parser.add_argument("--keep", default=os.path.join(tempfile.gettempdir(), "talft-other-words"), metavar="FOLDER",
                        help="keeps source, words and outputs of what differs")
    asked = parser.parse_args()
    asked.program = os.path.abspath(asked.program)
    sys.setrecursionlimit(20_000)
    counts, different = collections.Counter(), 0
    for found, told in answers(asked):
        counts.update(found)
        different += len(told)
        print("".join(line + "\n" for line in told), end="", flush=True)
    print(f"seed {asked.seed}: {', '.join(f'{name} {counts[name]}' for name in sorted(counts))}, "
          f"{sum(os.times()[:4]):.0f} s of a processor")
    print(f"{counts['sources']} sources: {different} differ")
    return 1 if different else 0


if __name__ == "__main__":
    sys.exit(main())
