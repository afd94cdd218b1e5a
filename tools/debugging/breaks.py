"""Breakpoints: where they are, when they halt, and how often they were reached."""
import operator
import re

from common import SITES, WORDS, Refused
from debugging.reading import NO_WORD
from debugging.runs import Wanted
from messages import quoted

COMPARES = {"==": operator.eq, "!=": operator.ne, "<=": operator.le, ">=": operator.ge, "<": operator.lt,
            ">": operator.gt}
COMPARISON = re.compile(r"\s*([^\s=!<>()]+)\s*(==|!=|<=|>=|<|>)\s*([^\s=!<>()]+)\s*")
SPLIT = re.compile(r"(?:^|\s+)(?:if|hit)(?:\s+|$)")
# Operators that other debuggers accept in a condition, and the reply to them.
NOT_TAKEN = ((re.compile(r"(?:^|\s)or(?:\s|$)|\|\|"), "comparisons can be joined only by `and`"),
             (re.compile(r"[()]"), "parentheses are not supported: join comparisons by `and`"),
             (re.compile(r"(?<![=!<>])=(?!=)"), "write `==` for `=`"))
MOST = 64
TOO_MANY = f"too many breakpoints: at most {MOST} are possible"


class Condition:
    """Comparisons of words, all of which must hold: `r1 == 5 and out != r33`. Words are compared as unsigned numbers."""

    def __init__(self, text, target):
        self.text, self.parts = " ".join(text.split()), []
        for part in re.split(r"(?:^|\s+)and(?:\s+|$)|\s*&&\s*", text.strip()):
            match = COMPARISON.fullmatch(part)
            if not match:
                raise Refused(self.why_not(part, target))
            self.parts.append((self.operand(match[1], target), match[2], self.operand(match[3], target)))

    def why_not(self, part, target):
        """Why a part is not a comparison."""
        for pattern, why in NOT_TAKEN:
            if pattern.search(self.text):
                return f"{quoted(self.text)}: {why}"
        what = f"{quoted(self.text)}: missing comparison"
        if part.strip():
            what = f"invalid comparison {quoted(part.strip())}"
        variable = "" if target.names is None else "a variable, "
        return (f"{what}: expected WORD OP WORD, where OP is one of {' '.join(COMPARES)}, and WORD a register, a cell, "
                f"{variable}or a number")

    @staticmethod
    def operand(text, target):
        """A number, or the line that asks for a word."""
        if question := question_of(text, target):
            return question
        target.check_array(text)
        try:
            found = int(text.replace("_", ""), 0)
        except ValueError:
            variable = "" if target.names is None else "a variable, "
            raise Refused(f"unknown name {quoted(text)}: expected a register, a cell, {variable}or a number") from None
        if not 0 <= found < WORDS:
            raise Refused(f"{quoted(text)} is {NO_WORD}")
        return found

    def questions(self):
        """The lines that ask for its words."""
        return [side for left, _, right in self.parts for side in (left, right) if isinstance(side, str)]

    def holds(self, answers):
        """Whether it holds, given the answer to each question."""
        def word(side):
            return int(answers[side].split(" ")[-1]) if isinstance(side, str) else side
        return all(COMPARES[sign](word(left), word(right)) for left, sign, right in self.parts)


def question_of(name, target):
    """The line that asks for the word of a register, a counter, a cell or a variable of the source; else None."""
    if name in SITES[:67]:
        return f"reg {name}"
    if name in target.listing.cells:
        return f"cell {name}"
    place = (target.names or {}).get(name)
    return f"reg r{place.pair}" if place and place.pair is not None else None


class Break:
    """A breakpoint. It halts when its condition holds, from hit number `least` on.

    A line of a source may have several parts. The first one is `instruction`."""

    def __init__(self, parts, temporary=False, condition=None, least=1):
        self.parts, self.temporary, self.condition, self.least = parts, temporary, condition, least
        self.instruction, self.places = parts[0], {part.key() for part in parts}

    def is_as(self, other):
        """Whether another breakpoint halts under the same conditions."""
        texts = [one.condition and one.condition.text for one in (self, other)]
        return ((self.places, self.temporary, self.least, texts[0])
                == (other.places, other.temporary, other.least, texts[1]))

    def told(self):
        """What a list of breakpoints says after the place."""
        parts = [f"and {part.place()}" for part in self.parts[1:]] + (["temporary"] if self.temporary else [])
        parts += [f"from hit {self.least} on"] if self.least > 1 else []
        return "  ".join(parts + ([f"if {self.condition.text}"] if self.condition else []))


def read(text, target, temporary=False):
    """Reads `PLACE [if CONDITION] [hit N]` as a breakpoint."""
    parts = SPLIT.split(text)
    marks = [mark.strip() for mark in SPLIT.findall(text)]
    condition, least, place = None, 1, place_in(text)
    if not place:
        raise Refused(f"missing place before {quoted(text)}: write it as in `break 1:0 {text[:40]}`")
    for mark, part in zip(marks, parts[1:]):
        if mark == "if":
            condition = Condition(part, target)
        elif part.strip().isdigit() and int(part) > 0:
            least = int(part)
        else:
            raise Refused(f"invalid hit {quoted(part.strip())}: expected a number, at least 1")
    return Break(target.find_parts(place), temporary, condition, least)


def wanted_of(breaks):
    """What a run asks at each halt, and whether it then stays there. Hits are counted in the order of the calls."""
    questions = sorted({line for one in breaks for line in (one.condition.questions() if one.condition else [])})
    hits = {}

    def holds(place, told):
        answers, stays = dict(zip(questions, told)), False
        for one in breaks:
            if place in one.places and (not one.condition or one.condition.holds(answers)):
                hits[one] = hits.get(one, 0) + 1
                stays = stays or hits[one] >= one.least
        return stays
    return Wanted(questions, holds)


def place_in(text):
    """The place of `PLACE [if CONDITION] [hit N]`."""
    return SPLIT.split(text)[0].strip()


def places_of(breaks):
    """All places of these breakpoints."""
    return {place for one in breaks for place in one.places}


def are_plain(breaks):
    """Whether each of them halts every time."""
    return all(one.condition is None and one.least <= 1 for one in breaks)


def are_counted(breaks):
    """Whether hits must be counted from the start of the run."""
    return any(one.least > 1 for one in breaks)
