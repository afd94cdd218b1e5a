"""The command line of a tool: argparse, with messages that say what is wrong and what is expected."""
import argparse
import re
import sys

from common import is_word, see_help
from kinds import OPTIONS, kind_of_operand
from messages import NAME, listed, near, quoted

MOST_ANSWERS = 4_096

# Messages of argparse, and their wording here.
TOLD = ((r"argument (?P<name>.*?): expected one argument", "{name} needs a value, {value}"),
        (r"argument (?P<name>.*?): expected at least one argument", "missing {name}"),
        (r"argument (?P<name>.*?): ignored explicit argument .*", "{name} takes no value"),
        (r"argument (?P<name>.*?): (?P<rest>.*)", "{name}: {rest}"))
# What other programs call the option for the output file.
OUTPUT = "-o", "--out", "--output"
# What the values are called that an option never takes empty: a script may have lost them.
NEVER_EMPTY = "FILE", "DIR", "OBJECT", "SOURCE", "LIST", "NAME", "LO:HI", "STEP:SITE:WORD"
DASHES = "\u2010\u2011\u2012\u2013\u2014\u2212"


class Once(argparse.Action):
    """Stores a value, and refuses a second one."""

    def __call__(self, parser, namespace, values, option_string=None):
        if option_string and self.dest in parser.given:
            parser.error(f"`{option_string}` is given twice")
        if option_string and values == "" and (self.metavar in NEVER_EMPTY or option_string in ("-o", "--text")):
            parser.error(f"`{option_string}` needs a value, {self.metavar}")
        parser.given.add(self.dest)
        setattr(namespace, self.dest, values)


class Parser(argparse.ArgumentParser):
    """Parses the arguments of a tool.

    `others` are prefixes of options for another program. `instead` says what to do about a surplus argument;
    `elsewhere` says what to use here instead of options that other programs have; `-l*` is any that begins with `-l`."""

    def __init__(self, about, more, others=(), instead=None, elsewhere=None, **rest):
        super().__init__(prog=NAME, description=about, epilog=more,
                         formatter_class=argparse.RawDescriptionHelpFormatter, **rest)
        self.others, self.given, self.spare, self.instead = tuple(others), set(), set(), instead
        self.elsewhere, self.words = elsewhere or {}, []
        for action in (None, "store"):
            self.register("action", action, Once)

    def parse_intermixed_args(self, args=None, namespace=None):
        # argparse would ask for optional arguments, too.
        self.spare = {action.metavar for action in self._actions if action.nargs == "*"}
        self.check(args)
        return self.none_more(*self.parse_known_intermixed_args(args, namespace))

    def parse_known_args(self, args=None, namespace=None):
        self.given, self.words = set(), args
        self.check(args)
        return super().parse_known_args(args, namespace)

    def parse_args(self, args=None, namespace=None):
        return self.none_more(*self.parse_known_args(args, namespace))

    def none_more(self, asked, more):
        """The parsed arguments, if none is left over."""
        if more:
            self.error(self.lacks_option(more[0])
                       or f"unexpected argument {quoted(more[0])}" + (f": {self.instead}" if self.instead else ""))
        return asked

    def operands(self):
        """The arguments that are neither options nor their values."""
        found, is_value, only = [], False, False
        for word in self.words:
            if is_value:
                is_value = False
            elif only or word == "-" or not word.startswith("-"):
                found.append(word)
            elif word == "--":
                only = True
            else:
                is_value = any(option == word or word[:2] == "--" and option.startswith(word)
                               for action in self._actions if action.nargs != 0 for option in action.option_strings)
        return found

    def lacks_option(self, word, missing=None):
        """The message about an operand whose option is missing; None if no option takes it. `missing` limits the options."""
        kind = kind_of_operand(word)
        action = next((action for action in self._actions if OPTIONS.get(kind) in action.option_strings), None)
        if action is None or action.dest in self.given or (missing is not None and action.option_strings[0] not in missing):
            return None
        return f"{quoted(word)} is {kind}: put `{OPTIONS[kind]}` before it"

    def lacks_required(self, missing):
        """The message about required options that are missing, if an operand seems to be the value of one; else None."""
        places = [action for action in self._actions if not action.option_strings]
        words, missing = self.operands(), [name for name in missing if name.startswith("-")]
        for word in words:
            if told := self.lacks_option(word, missing):
                return told
        if len(missing) != 1:
            return None
        if any(action.nargs for action in places):
            surplus = [word for word in words[1:] if missing == ["-o"] and word.endswith(".obj")]
        else:
            surplus = words[len(places):]
        return f"missing `{missing[0]}` before {quoted(surplus[0])}" if surplus else None

    def options(self):
        """The names of the options."""
        return [name for action in self._actions for name in action.option_strings]

    def check(self, words):
        """Refuses unknown options before missing ones are reported."""
        for word in words[:words.index("--")] if "--" in words else words:
            name, known = word.partition("=")[0], self.options()
            if word.lstrip("-")[:1] in tuple(DASHES):
                self.no_dash(word, name.lstrip("-" + DASHES))
            if not re.match(r"-[^\d\s]", word) or " " in name or word.startswith(self.others):
                continue
            if not any(option.startswith(name) if name.startswith("--") else name.startswith(option)
                       for option in known if option.startswith("--") == name.startswith("--")):
                self.unknown(name)

    def no_dash(self, word, name):
        """Refuses a word with a typographic dash that would otherwise be an option."""
        for option in "--" + name, "-" + name:
            if name and (option in self.options() or option.startswith(self.others)):
                self.error(f"{quoted(word)} begins with a typographic dash: write {quoted(option)}")

    def unknown(self, name):
        """Refuses an unknown option, and suggests what may be meant."""
        if name in OUTPUT and not set(OUTPUT).intersection(self.options()):
            self.error(f"unknown option {quoted(name)}: {self.prog} writes to standard output: add `>FILE`")
        if name in ("--version", "-V"):
            self.error(f"unknown option {quoted(name)}: `talft --version` gives the version")
        for other, told in self.elsewhere.items():
            if name == other or other[-1:] == "*" and name.startswith(other[:-1]):
                self.error(f"unknown option {quoted(name)}: {told}")
        passed = f"; only {listed(self.others, 'and')} are passed on" if self.others else ""
        self.error(f"unknown option {quoted(name)}{self.meant(name) or passed}")

    def meant(self, name):
        """Suggestions for an unknown option, to be appended to the message; empty if there are none."""
        short = re.fullmatch(r"-([a-zA-Z]{1,2})(\d*)", name)
        if not short:
            return near("--" + name.strip("-"), self.options())
        # One or two letters resemble too many names: only names that begin with them are suggested.
        found = [f"{option} {short[2]}".rstrip() for action in self._actions for option in action.option_strings
                 if option.startswith("--" + short[1]) and not (short[2] and action.nargs == 0)]
        return f"; did you mean {listed(found)}?" if found and not self.others else ""

    def told_name(self, name):
        """An option or an argument as messages name it, and what its value is called."""
        for action in self._actions:
            if "/".join(action.option_strings) == name or name in (action.metavar, action.dest):
                called = action.option_strings[-1] if action.option_strings else None
                return f"`{called}`" if called else action.metavar or name, action.metavar or action.dest.upper()
        return name, "VALUE"

    def told(self, message):
        """A message of argparse, reworded."""
        if match := re.fullmatch(r"the following arguments are required: (.*)", message):
            if told := self.lacks_required(match[1].split(", ")):
                return told
            told = [self.told_name(name) for name in match[1].split(", ") if name not in self.spare]
            return "missing " + " and ".join(f"`{name[1:-1]} {value}`" if name[0] == "`" else name
                                             for name, value in told)
        if match := re.fullmatch(r"ambiguous option: (\S+?)(?:=.*)? could match (.*)", message):
            return f"ambiguous option {quoted(match[1])}: {listed(match[2].split(', '))}"
        if match := re.fullmatch(r"argument (\S+): invalid choice: (.*) \(choose from (.*)\)", message):
            known, word = re.findall(r"[\w-]+", match[3]), match[2].strip("'")
            return f"`{match[1]}`: unknown value {quoted(word)}: expected {listed(known)}{near(word, known)}"
        for pattern, text in TOLD:
            if match := re.fullmatch(pattern, message, re.DOTALL):
                name, value = self.told_name(match["name"])
                return text.format(**{**match.groupdict(), "name": name, "value": value})
        return message

    def print_help(self, file=None):
        # argparse ignores a failed write.
        (file or sys.stdout).write(self.format_help())

    def error(self, message):
        """Ends the tool with a message about its arguments."""
        self.exit(2, f"{self.prog}: {self.told(message)}\n{see_help()}\n")


def wild_answers(text):
    """The answers to wild loads, as the program reads them."""
    parts = text.split(",")
    if len(parts) > MOST_ANSWERS or not all(is_word(part) or part == "stop" for part in parts):
        raise argparse.ArgumentTypeError(f"invalid answers {quoted(text)}: expected at most {MOST_ANSWERS} parts "
                                         "separated by commas, each a number or `stop`")
    return text


def number(least=0, most=None, step=1):
    """A function that reads whole numbers in this range."""
    def read(text):
        if re.fullmatch(r"[0-9]{1,20}", text):
            found = int(text)
            if found >= least and (most is None or found <= most) and found % step == 0:
                return found
        told = f"{least} to {most}" if most is not None else f"a whole number, at least {least}"
        told = f"a multiple of {step} from {told}" if step > 1 else told
        told = "at most 20 digits" if most is None and re.fullmatch(r"[0-9]{21,}", text) else told
        raise argparse.ArgumentTypeError(f"invalid number {quoted(text)}: expected {told}")
    return read
