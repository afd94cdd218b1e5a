"""Reads the lines of a campaign in blocks, as columns: so a million lines take about a second."""
import collections
import functools
import os
import re

from common import SITES, TOTALS, VERDICT, VERDICTS, Refused, emptied, no_verdict
from kinds import kind_of_path
from messages import named, quoted

# How many characters are read at once.
BLOCK = 1 << 18
# Whole lines with verdicts, as VERDICT has one.
LINES = re.compile(r"(?:\d{1,20}:[a-z]+\d*:\d{1,20} (?:masked|idle|corrupt|detected \d{1,20})\n)+")


class Columns:
    """Consecutive lines: their steps, sites, words (as text), verdicts, and steps of detection or None."""

    def __init__(self, steps, sites, words, verdicts, ats):
        self.steps, self.sites, self.words, self.verdicts, self.ats = steps, sites, words, verdicts, ats

    @functools.cached_property
    def counts(self):
        """How many lines have each pair of a site and a verdict."""
        return collections.Counter(zip(self.sites, self.verdicts))

    def add(self, *parts):
        """Adds a line."""
        for column, part in zip((self.steps, self.sites, self.words, self.verdicts, self.ats), parts):
            column.append(part)


def of_block(text, known):
    """The columns of whole lines, or None if one of them is no verdict."""
    if not LINES.fullmatch(text):
        return None
    for verdict in VERDICTS:
        text = text.replace(f" {verdict} " if verdict == "detected" else f" {verdict}", f":{verdict}:")
    parts = text.replace("\n", ":").split(":")
    # The last part is the empty one after the last line.
    steps, sites, words, verdicts, ats = (parts[at:-1:5] for at in range(5))
    if not known.issuperset(sites):
        return None
    return Columns(list(map(int, steps)), sites, words, verdicts, [int(at) if at else None for at in ats])


class Reader:
    """Reads a file line by line where a block has other lines than verdicts; the totals must match."""

    def __init__(self, path):
        self.path, self.known, self.number, self.totals = path, set(SITES), 0, None
        self.counts = dict.fromkeys(VERDICTS, 0)

    def refused(self, more, told):
        """The error about the current line, or the one `more` lines below it."""
        return Refused(f"{named(self.path)}:{self.number + more}: {told}")

    def take(self, text):
        """The columns of these lines."""
        columns = None if self.totals else of_block(text, self.known)
        if columns is None:
            columns = Columns([], [], [], [], [])
            for line in (text[:-1] if text[-1] == "\n" else text).split("\n"):
                self.line(line, columns)
        else:
            self.number += len(columns.steps)
        for (_, verdict), count in columns.counts.items():
            self.counts[verdict] += count
        return columns

    def line(self, line, columns):
        """Adds a line to the columns, or takes it as the totals."""
        self.number += 1
        match = VERDICT.fullmatch(line)
        if self.totals or not match or match[2] not in self.known:
            if self.totals and not line.startswith("talft-campaign: "):
                raise self.refused(0, f"unexpected {quoted(line)} after the totals; give one file for each campaign")
            self.totals = TOTALS.fullmatch(line)
            if not self.totals:
                raise self.refused(0, no_verdict(line, self.number == 1 and kind_of_path(self.path)))
            return
        columns.add(int(match[1]), match[2], match[3], match[4] or match[5], int(match[6]) if match[6] else None)

    def end(self):
        """Tests the totals, after the last line."""
        if not self.number:
            raise Refused(f"{named(self.path)}: {emptied(self.path, 'expected the lines of a campaign')}")
        if not self.totals:
            raise self.refused(1, "missing last line `faults ..`, with the totals: the file is incomplete")
        if [int(n) for n in self.totals.groups()] != [sum(self.counts.values()), *self.counts.values()]:
            told = " ".join(f"{verdict} {count}" for verdict, count in self.counts.items())
            raise self.refused(0, f"the totals do not match the lines, which add up to {told}")


def columns_of(path):
    """The lines of a campaign, in columns of some thousand lines each."""
    if os.path.isdir(path):
        raise Refused(f"{named(path)}: is a folder; give a file with the standard output of `talft-campaign`")
    reader, rest = Reader(path), ""
    with open(path, encoding="ascii", errors="replace") as file:
        while text := file.read(BLOCK):
            whole, newline, rest = (rest + text).rpartition("\n")
            if newline:
                yield reader.take(whole + newline)
            elif len(rest) > BLOCK:
                # No line is as long: it is refused.
                yield reader.take(rest)
    if rest:
        yield reader.take(rest)
    reader.end()


def verdicts(path):
    """The lines of a campaign as (step, site, word, verdict, step of detection or None)."""
    for some in columns_of(path):
        yield from zip(some.steps, some.sites, map(int, some.words), some.verdicts, some.ats)
