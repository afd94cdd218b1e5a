"""Reads the arguments of commands."""
from common import WORDS, Refused
from messages import quoted

NO_WORD = f"out of range: expected 0 to {WORDS - 1}"


def number(words, default=None, least=0):
    """The only argument, as a number."""
    if not words and default is not None:
        return default
    if not words:
        raise Refused("missing number")
    no_more(words[1:])
    try:
        found = int(words[0], 0)
    except ValueError:
        raise Refused(f"invalid number {quoted(words[0])}: expected decimal digits, or hex as 0x10") from None
    if found < least:
        raise Refused(f"invalid number {quoted(words[0])}: expected at least {least}")
    return found


def no_dollar(name):
    """The error about a name as gdb writes it."""
    return Refused(f"{quoted(name)}: names have no `$` here: write {quoted(name[1:] or 'r1')}")


def no_more(words, command=None):
    """Refuses superfluous arguments."""
    if words:
        raise Refused(f"unexpected argument {quoted(words[0])}" + (f": `{command}` takes none" if command else ""))


def no_sign(command, words):
    """Refuses an equals sign between a site and its word."""
    parts = " ".join(words).replace("=", " ", 1).split()
    if any("=" in word for word in words) and len(parts) == 2:
        raise Refused(f"write {quoted(f'{command} {parts[0]} {parts[1]}')}, without `=`")


def fault_joined(words):
    """The arguments with each --fault and its value joined: a value that begins with a dash is not an option."""
    joined = []
    for word in words:
        if joined and joined[-1] == "--fault":
            joined[-1] = f"--fault={word}"
        else:
            joined.append(word)
    return joined


def word_of(text):
    """A word of the machine, from a number in Python's notation."""
    try:
        found = int(text.replace("_", ""), 0)
    except ValueError:
        raise Refused(f"invalid number {quoted(text)}: expected decimal digits, or hex as 0x10") from None
    if not 0 <= found < WORDS:
        raise Refused(f"{quoted(text)} is {NO_WORD}")
    return found


def one_word(words, wanted):
    """The only argument."""
    if not words:
        raise Refused(wanted)
    no_more(words[1:])
    return words[0]
