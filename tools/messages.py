"""How messages quote words, name files, and report system errors."""
import errno
import os
import re
import sys

# What users call the running tool: `talft-` and the name of its file, whatever link it is called by.
NAME = "talft-" + os.path.basename(os.path.realpath(sys.argv[0]))
MOST_QUOTED, MOST_NAMED = 60, 200
REASONS = {errno.ENOENT: "no such file", errno.EISDIR: "is a folder", errno.EACCES: "permission denied",
           errno.EPERM: "permission denied", errno.ENOTDIR: "is not a folder",
           errno.EEXIST: "exists already", errno.ENOSPC: "no space left on the device",
           errno.ENAMETOOLONG: "the name is too long", errno.ENOEXEC: "cannot be executed"}

# The extensions that people leave out of file names.
ENDS = ".obj", ".src", ".asm", ".map", ".faults", ".c"


def escaped(letter):
    """An invisible character, or one that would move the cursor, as Python escapes it."""
    byte = ord(letter) - 0xDC00
    return f"\\x{byte:02x}" if 0x80 <= byte <= 0xFF else letter.encode("unicode_escape").decode()


def printable(text, kept=""):
    """The text with everything escaped that a terminal does not print, except the characters in `kept`."""
    return "".join(letter if letter.isprintable() or letter in kept else escaped(letter) for letter in text)


def quoted(text):
    """User input as part of a message: printable, and not long."""
    shown = printable(text[:MOST_QUOTED + 1])
    if len(shown) > MOST_QUOTED:
        # An escape is never cut in two.
        shown = re.sub(r"\\(x[0-9a-f]?)?$", "", shown[:MOST_QUOTED - 2]) + ".."
    return f"`{shown}`"


def named(path):
    """The name of a file, as a part of a message."""
    half = MOST_NAMED // 2 - 1
    cut = path if len(path) <= MOST_NAMED else path[:half] + ".." + path[-half:]
    return printable(cut) or "an empty file name"


def wrong_folder(path):
    """What is wrong with the folder of a path; empty if it exists."""
    folder = os.path.dirname(path)
    if not folder or os.path.isdir(folder):
        return ""
    # Names the outermost part that is missing.
    while os.path.dirname(folder) and not os.path.exists(folder) and not os.path.isdir(os.path.dirname(folder)):
        folder = os.path.dirname(folder)
    return f"{quoted(folder)} is not a folder" if os.path.exists(folder) else f"there is no folder {quoted(folder)}"


def reason(error):
    """What went wrong with a file, in the same words for each tool."""
    is_path = isinstance(error.filename, str) and error.errno in (errno.ENOENT, errno.ENOTDIR)
    if is_path and error.filename == "-":
        return f"{REASONS[errno.ENOENT]}; `-` does not mean standard input here: give a file name"
    if is_path and (told := wrong_folder(error.filename)):
        return told
    if is_path and (longer := [error.filename + end for end in ENDS if os.path.isfile(error.filename + end)]):
        return f"{REASONS[errno.ENOENT]}; did you mean {listed(longer)}?"
    said = REASONS.get(error.errno) or error.strerror or str(error)
    return said[:1].lower() + said[1:]


def listed(words, last="or"):
    """Words as prose lists them: `a`, `b` or `c`."""
    words = [quoted(word) for word in words]
    return f" {last} ".join(filter(None, [", ".join(words[:-1]), words[-1]]))


def near(word, known):
    """Suggestions for an unknown word, to be appended to the message; empty if there are none."""
    # Imported only when a word is unknown, since it takes time.
    from difflib import SequenceMatcher
    likeness = {other: SequenceMatcher(None, word.lower(), other.lower()).ratio() for other in known}
    best = max(likeness.values(), default=0)
    found = [other for other in likeness if likeness[other] > best - 0.05][:3] if best > 0.6 else []
    return f"; did you mean {listed(found)}?" if found else ""
