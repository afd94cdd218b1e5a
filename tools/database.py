"""Keeps the verdicts of campaigns in SQLite."""
import contextlib
import os
import sqlite3

from bounds import class_of
from common import Refused
from messages import named

BEGINNING = b"SQLite format 3\0"

TABLES = """
CREATE TABLE IF NOT EXISTS campaign (
  id INTEGER PRIMARY KEY,
  object TEXT NOT NULL,    -- the SHA-256 of the object
  faults TEXT NOT NULL,    -- the SHA-256 of the list
  words TEXT NOT NULL,     -- campaign or survey, with its options
  about TEXT,              -- the arguments of `talft-faults`, if they are known
  sampled INTEGER,         -- 1 if the list is a sample, 0 if it has all faults of these arguments
  version TEXT, began TEXT,
  UNIQUE (object, faults, words)
);
CREATE TABLE IF NOT EXISTS verdict (
  campaign INTEGER NOT NULL REFERENCES campaign (id) ON DELETE CASCADE,
  number INTEGER NOT NULL, -- the place in the list, from 0
  step INTEGER NOT NULL, site TEXT NOT NULL, class TEXT NOT NULL,
  word TEXT NOT NULL,      -- in decimal: SQLite's own numbers end at 2^63
  verdict TEXT NOT NULL, detected INTEGER,
  PRIMARY KEY (campaign, number)
) WITHOUT ROWID;
"""


def check_database(path):
    """Refuses a file that is not a database, before the campaign is run."""
    if not os.path.exists(path):
        return
    with open(path, "rb") as file:
        start = file.read(len(BEGINNING))
    if start and start != BEGINNING:
        raise Refused(f"--database: {named(path)}: is not an SQLite database; give another file")


def keep(path, told, told_about, verdicts):
    """Stores a campaign with its verdicts, replacing an earlier run of the same campaign, or changes nothing."""
    of, drawn, words = told_about or (None, None, None)
    sampled = None if of is None else int(drawn < sum(of.values()))
    key = (told["object"], told["faults"], " ".join(told["words"]))
    try:
        with contextlib.closing(sqlite3.connect(path)) as base, base:
            base.executescript(TABLES)
            base.execute("PRAGMA foreign_keys = ON")
            base.execute("BEGIN IMMEDIATE")
            base.execute("DELETE FROM campaign WHERE object = ? AND faults = ? AND words = ?", key)
            number = base.execute("INSERT INTO campaign (object, faults, words, about, sampled, version, began) "
                                  "VALUES (?, ?, ?, ?, ?, ?, ?)",
                                  (*key, words, sampled, told.get("version"), told.get("began"))).lastrowid
            base.executemany("INSERT INTO verdict VALUES (?, ?, ?, ?, ?, ?, ?, ?)",
                             ((number, place, step, site, class_of(site), str(word), verdict, at)
                              for place, (step, site, word, verdict, at) in enumerate(verdicts)))
    except sqlite3.Error as error:
        raise Refused(f"{path}: {error}") from error
