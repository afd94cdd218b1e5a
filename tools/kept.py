"""What a campaign keeps besides its lines: the object, the steps of its runs, and whether they were cut."""
import collections
import itertools
import json
import os
import re
import subprocess
import tempfile

from columns import verdicts
from common import SITES, VERDICT, Refused, check_object, in_this_process, not_run, program, put, why
from debugging.sessions import length_of_run
from messages import named

# How many faults of each verdict are retried to test whether lines belong to an object, and how many lines are searched
# for them.
MOST_TRIED, MOST_LOOKED_AT = 16, 100_000
Kept = collections.namedtuple("Kept", "object words wild command faults version began is_cut steps")


def kept_in(folder):
    """What `talft-campaign` keeps in a folder."""
    file = os.path.join(folder, "campaign.json")
    if not os.path.isdir(folder):
        raise Refused(f"--dir: {named(folder)}: {'is not a folder' if os.path.exists(folder) else 'no such folder'}; "
                      "give the folder that `talft-campaign` made")
    if not os.path.exists(file):
        raise Refused(f"--dir: {named(folder)}: holds no campaign (no campaign.json); give the folder that "
                      "`talft-campaign` made, or the object with --object")
    with open(file, encoding="utf-8") as text:
        try:
            told = json.load(text)
            words = told["words"]
            return Kept(os.path.join(folder, "object"), words, told["wild"], told["asked"], told["faults"],
                        told.get("version"), told.get("began"), told.get("cut"), int(words[words.index("--steps") + 1]))
        except (ValueError, KeyError, IndexError, TypeError, AttributeError) as error:
            raise Refused(f"{named(file)}: is damaged, or was not written by `talft-campaign`") from error


def some_of(path):
    """The first faults of each verdict but idle: line number, fault, verdict, and the last known step of its run."""
    found = collections.defaultdict(list)
    for number, line in enumerate(itertools.islice(verdicts(path), MOST_LOOKED_AT), 1):
        step, site, word, verdict, at = line
        if verdict != "idle" and len(found[verdict]) < MOST_TRIED:
            told = verdict if at is None else f"{verdict} {at}"
            found[verdict].append((number, f"{step}:{site}:{word}", told, max(step, at or 0)))
    return sorted(itertools.chain.from_iterable(found.values()))


def is_possible(told, again):
    """Whether a fault with the first verdict may get the second in a run that is cut after the last known step."""
    return told == again or again == "corrupt" or (told in ("masked", "corrupt") and again == "masked")


def check_lines(path, object_file, wild=None):
    """Refuses lines from another object, as far as retrying some of their faults shows."""
    some = some_of(path)
    if not some:
        return
    steps = max(known for *_, known in some) + 1
    with tempfile.NamedTemporaryFile(suffix=".faults") as faults:
        put(faults.name, "".join(f"{fault}\n" for _, fault, *_ in some).encode())
        words = [program(), "survey", object_file, "--faults", faults.name, "--steps", str(steps)]
        try:
            # These runs are cut on purpose: no note about it.
            done = subprocess.run(words + (["--wild", wild] if wild else []), stdin=subprocess.DEVNULL,
                                  env={**os.environ, "TALFT_EXPLAIN": "0"}, stdout=subprocess.PIPE,
                                  universal_newlines=True, check=False)
        except OSError as error:
            raise not_run(program(), error) from error
    again = [match[4] or f"{match[5]} {match[6]}" for match in map(VERDICT.fullmatch, done.stdout.splitlines()) if match]
    for (number, fault, told, _), verdict in zip(some, again):
        if not is_possible(told, verdict):
            raise Refused(f"{named(path)}:{number}: `{fault} {told}`: on {named(object_file)} this fault is {verdict}; give the "
                          "object of this campaign, and the same --wild")


def is_cut(object_file, steps, wild=None):
    """Whether the run without a fault continues after this many steps."""
    return not length_of_run(object_file, steps, wild)[1]


def asked_version():
    """A running `talft --version`, whose output `version` reads, or None if there is no such program."""
    try:
        return subprocess.Popen([program(), "--version"], stdin=subprocess.DEVNULL, stdout=subprocess.DEVNULL,
                                stderr=subprocess.PIPE, text=True, errors="replace")
    except OSError:
        return None


def version(asked=None):
    """What `talft --version` says, or None."""
    asked = asked or asked_version()
    found = asked and re.search(r"\b\d+\.\d+\.\d+\S*", asked.communicate()[1])
    return found[0] if found else None


def used_registers(object_file):
    """The registers that instructions of an object name; d is not among them."""
    check_object(object_file)
    said = in_this_process("dis", object_file)
    if said is None:
        try:
            done = subprocess.run([program(), "dis", object_file], stdin=subprocess.DEVNULL, capture_output=True,
                                  check=False)
        except OSError as error:
            raise not_run(program(), error) from error
        if done.returncode != 0:
            told = (done.stdout + done.stderr).decode("utf-8", "replace").strip()
            raise Refused(f"{named(object_file)}: {told or why(done.returncode, '')}")
        said = done.stdout
    registers, found = set(SITES[:64]), set()
    for line in said.decode("utf-8", "replace").splitlines():
        words = line.split()
        # Other lines have register types, and names that may look like registers.
        if words and words[0] not in ("cell", "node", "type", "block", "entry", "reg"):
            found.update(registers.intersection(words[1:]))
    return found


def told_of_cut(count, most, steps):
    """How many struck runs were still running, as text; None if none was."""
    if not most:
        return None
    number = f"{count:,}" if count == most else f"{count:,} to {most:,}" if count else f"up to {most:,}"
    runs = "run was" if most == 1 else "runs were"
    return f"{number} struck {runs} still running after {steps:,} steps"
