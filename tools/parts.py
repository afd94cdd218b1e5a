"""Parts of a fault list, and whether an answer belongs to its part. Lists are long, so lines are handled in bulk."""
import collections
import hashlib
import os
import re
from concurrent.futures import ThreadPoolExecutor

from common import SITES, VERDICTS, WORDS, Refused, wrong_fault
from messages import named, reason

MOST_FAULTS, MOST_PRODUCT = 65_536, 1_000_000_000
# How many faults make a call of the program worthwhile.
WORTH = 4_096
FAULT = re.compile(r"(0|[1-9]\d{0,19}):(?:%s):(0|[1-9]\d{0,19})" % "|".join(SITES))
DETECTED = re.compile(rb" detected \d{1,20}\n")
# How many files are written at once: a disk syncs several together.
AT_ONCE = 8


def no_link(path, flags):
    """Opens a file, but never through a link, which may lead out of the folder."""
    return os.open(path, flags | os.O_NOFOLLOW, 0o666)


def keep_file(path, name):
    """Renames a file to its final name, once all of it is on the disk."""
    try:
        with open(path, "rb") as data:
            os.fsync(data.fileno())
        os.replace(path, name)
    except OSError as error:
        raise not_kept(name, error) from error


def write(path, data):
    """Writes a file completely or not at all."""
    try:
        with open(path + ".new", "wb", opener=no_link) as out:
            out.write(data)
    except OSError as error:
        raise not_kept(path, error) from error
    keep_file(path + ".new", path)


def write_all(files):
    """Writes files, given with their names, each completely or not at all. Holds only a few at a time in memory."""
    with ThreadPoolExecutor(AT_ONCE) as pool:
        begun = collections.deque()
        for path, data in files:
            begun.append(pool.submit(write, path, data))
            if len(begun) == AT_ONCE:
                begun.popleft().result()
        for done in begun:
            done.result()


def not_kept(path, error):
    """The error for a file of the campaign that cannot be written."""
    return Refused(f"{named(path)}: {reason(error)}; finished parts are kept: run the same command again to continue")


def remove(path):
    try:
        os.remove(path)
    except FileNotFoundError:
        pass


def digest(path):
    """The checksum of a file."""
    found = hashlib.sha256()
    with open(path, "rb") as data:
        while block := data.read(1 << 20):
            found.update(block)
    return found.hexdigest()


def is_list(path, parts):
    """Whether these files, one after the other, are the list. Its last line feed may be missing."""
    with open(path, "rb") as data:
        for name in parts:
            with open(name, "rb") as part:
                own = part.read()
            if data.read(len(own)).ljust(len(own), b"\n") != own:
                return False
        return not data.read(1)


def size_of(path):
    """The size of a list, and how many lines it has."""
    size, lines, last = 0, 0, b"\n"
    with open(path, "rb") as data:
        while block := data.read(1 << 20):
            size, lines, last = size + len(block), lines + block.count(b"\n"), block[-1:]
    return size, lines + (last != b"\n")


def parts_of(path, steps, jobs):
    """The parts of a list: each fits into one call of the program, and the jobs get equal shares."""
    size, lines = size_of(path)
    most = min(MOST_FAULTS, MOST_PRODUCT // steps)
    # The list is cut by bytes, so some parts have more lines than others.
    count = max(1, -(-lines * 8 // (most * 7)))
    count = max(count, min(-(-count // jobs) * jobs, lines // WORTH))
    with open(path, "rb") as data:
        while part := data.read(size // count + 1):
            part += b"" if part.endswith(b"\n") else data.readline()
            yield from within(part if part.endswith(b"\n") else part + b"\n", most)


def within(part, most):
    """The part, split if it has too many lines."""
    if part.count(b"\n") <= most:
        yield part
        return
    lines = part.splitlines(keepends=True)
    for first in range(0, len(lines), most):
        yield b"".join(lines[first:first + most])


def bad_line(part):
    """The first line of a part that is not a fault: its place, counted from 0, its text and what is wrong; or None."""
    for place, line in enumerate(part.decode("ascii", "replace").split("\n")[:-1]):
        match = FAULT.fullmatch(line)
        if not match or any(len(text) == 20 and int(text) >= WORDS for text in match.groups()):
            return place, line, wrong_fault(line)
    return None


def without_last(answer):
    """All lines of an answer but the last one, and the last one."""
    at = answer.rfind(b"\n", 0, len(answer) - 1) + 1
    return answer[:at], answer[at:]


def answers(answer, part):
    """Whether an answer has the verdicts of a part's faults, in order, and their totals."""
    lines, last = without_last(answer)
    left, detected = DETECTED.subn(b"\n", lines)
    counts, count = {"detected": detected}, lines.count(b"\n")
    for verdict in ("masked", "idle", "corrupt"):
        end = b" %s\n" % verdict.encode()
        counts[verdict] = lines.count(end)
        left = left.replace(end, b"\n") if counts[verdict] else left
    # Each line ends in one verdict, and a second verdict in a line would be one space too many.
    return (left == part and sum(counts.values()) == count and lines.count(b" ") == count + detected
            and last == b"faults %d masked %d detected %d idle %d corrupt %d\n"
            % (count, *(counts[verdict] for verdict in VERDICTS)))
