"""Which line of a source each instruction comes from, and where each name is kept.

The compiler records neither. But docs/COMPILER.md says what each statement becomes: this module lowers the source in
the same way, and gives lines only if each instruction has the mnemonic and the operands that result."""
import re

from debugging.machine import FIRST_CELL

TOKEN = re.compile(r"[ \t\r\n]+|#[^\n]*|(?P<name>[A-Za-z_]\w*)|(?P<number>[0-9]+)"
                   r"|(?P<sign>==|<<|>>|[=<;()\[\]{}+\-*&|^])", re.ASCII)
LEVELS = (("==",), ("<",), ("&", "|", "^"), ("<<", ">>"), ("+", "-"), ("*",))
OPERATIONS = {"==": "eq", "<": "ltu", "&": "and", "|": "or", "^": "xor", "<<": "shl", ">>": "shr", "+": "add",
              "-": "sub", "*": "mul"}


class Unknown(Exception):
    """The source is not what this module expects, so no lines are known."""


class Block:
    """A block that code jumps to; its start is known once everything is lowered."""

    address = None


class Name:
    """Where a name is kept: a register pair, or a number of cells from an address on."""

    def __init__(self, pair=None, address=None, length=None):
        self.pair, self.address, self.length = pair, address, length

    def told(self):
        """The place in words."""
        if self.pair is not None:
            return f"registers r{self.pair} and r{self.pair + 32}"
        if self.length is None:
            return f"the cell at {self.address}"
        return f"the cells from {self.address} to {self.address + self.length - 1}"


class Tokens:
    """The tokens of a source, one after the other, each with its line."""

    def __init__(self, text):
        self.tokens, self.at, line, at = [], 0, 1, 0
        while at < len(text):
            match = TOKEN.match(text, at)
            if not match:
                raise Unknown
            if match.lastgroup:
                self.tokens.append((match[0], line))
            line, at = line + match[0].count("\n"), match.end()

    def peek(self):
        """The next token, which stays; or None."""
        return self.tokens[self.at][0] if self.at < len(self.tokens) else None

    def line(self):
        """The line of the next token, or of the last."""
        return self.tokens[min(self.at, len(self.tokens) - 1)][1] if self.tokens else 1

    def take(self, wanted=None):
        """Takes the next token, which must be the wanted one, if given."""
        if self.at >= len(self.tokens) or wanted is not None and self.peek() != wanted:
            raise Unknown
        self.at += 1
        return self.tokens[self.at - 1][0]


class Lowering:
    """Walks over a source, and records the words and the line of each instruction."""

    def __init__(self, text):
        self.tokens, self.made, self.names, self.count = Tokens(text), [], {}, 0

    # INSTRUCTIONS: "Images" of docs/COMPILER.md

    def both(self, line, *words):
        """Adds an instruction in green and in blue; a number in `words` is a pair, for the register of each colour."""
        for colour, first in (("G", 0), ("B", 32)):
            told = [f"r{first + word}" if isinstance(word, int) else colour if word == "C" else
                    word.replace("_C", "_" + colour) if isinstance(word, str) else word for word in words]
            self.made.append((told, line))

    def word(self, line, pair, word):
        """Puts a word, or the address of a block, into a pair."""
        self.both(line, "mov", pair, "C", word if isinstance(word, Block) else str(word))

    def go(self, line, block):
        """Jumps, and ends the block."""
        self.word(line, self.count, block)
        self.both(line, "jmp_C", self.count)

    def exit(self, line, pair, block):
        """Jumps if the pair holds 0."""
        self.word(line, self.count, block)
        self.both(line, "bz_C", pair, self.count)

    def begin(self, block):
        """Begins a block here."""
        block.address = len(self.made) + 1

    # STATEMENTS: "Lowering" of docs/COMPILER.md

    def program(self):
        """The words and the line of each instruction."""
        tokens, variables, cells = self.tokens, [], 0
        while tokens.peek() in ("cell", "var"):
            kind, line, name = tokens.take(), tokens.line(), tokens.take()
            if kind == "var":
                self.names[name] = Name(pair=len(variables))
                variables.append(line)
            else:
                length = None
                if tokens.peek() == "[":
                    tokens.take()
                    length = int(tokens.take())
                    tokens.take("]")
                self.names[name] = Name(address=FIRST_CELL + cells, length=length)
                cells += length or 1
                tokens.take("=")
                tokens.take()
            tokens.take(";")
        self.count = len(variables)
        for pair, line in enumerate(variables):
            self.word(line, pair, 0)
        while tokens.peek() is not None:
            self.statement()
        self.made.append((["halt"], tokens.line()))
        return [([str(word.address) if isinstance(word, Block) else word for word in words], line)
                for words, line in self.made]

    def body(self):
        """Lowers the statements between braces; returns the line of the closing one."""
        self.tokens.take("{")
        while self.tokens.peek() != "}":
            self.statement()
        line = self.tokens.line()
        self.tokens.take("}")
        return line

    def statement(self):
        """Lowers a statement."""
        line, word = self.tokens.line(), self.tokens.take()
        {"while": self.loop, "if": self.choice}.get(word, self.assignment)(line, word)

    def test(self, line, out):
        """Lowers a test, which leaves the block if it is 0."""
        self.tokens.take("(")
        self.expression(line, self.count + 1)
        self.tokens.take(")")
        self.exit(line, self.count + 1, out)

    def loop(self, line, _):
        """Lowers a loop."""
        head, out = Block(), Block()
        self.go(line, head)
        self.begin(head)
        self.test(line, out)
        self.go(self.body(), head)
        self.begin(out)

    def choice(self, line, _):
        """Lowers a choice, with both sides."""
        other, out = Block(), Block()
        self.test(line, other)
        end = self.body()
        self.go(end, out)
        self.begin(other)
        if self.tokens.peek() == "else":
            self.tokens.take()
            end = self.body()
        self.go(end, out)
        self.begin(out)

    def assignment(self, line, word):
        """Lowers an assignment to a variable, a cell or a cell of an array."""
        name, pair = self.name(word), self.count + 1
        if name.length is not None:
            self.index(line, pair)
            pair += 1
        self.tokens.take("=")
        self.expression(line, pair)
        self.tokens.take(";")
        if name.pair is not None:
            self.both(line, "add", name.pair, pair, "C", "0")
            return
        if name.length is None:
            self.word(line, self.count, name.address)
        else:
            self.both(line, "idx", self.count, pair - 1, str(name.address - FIRST_CELL), str(name.length))
        self.both(line, "st_C", self.count, pair)

    def index(self, line, pair):
        """Lowers the expression between square brackets."""
        self.tokens.take("[")
        self.expression(line, pair)
        self.tokens.take("]")

    def name(self, word):
        """What a name is."""
        if word not in self.names:
            raise Unknown
        return self.names[word]

    def expression(self, line, pair, level=0):
        """Lowers an expression into a pair."""
        if level == len(LEVELS):
            self.atom(line, pair)
            return
        self.expression(line, pair, level + 1)
        while self.tokens.peek() in LEVELS[level]:
            sign = self.tokens.take()
            self.expression(line, pair + 1, level + 1)
            self.both(line, OPERATIONS[sign], pair, pair, pair + 1)

    def atom(self, line, pair):
        """Lowers a number, a name or a bracketed expression into a pair."""
        word = self.tokens.take()
        if word == "(":
            self.expression(line, pair)
            self.tokens.take(")")
            return
        if word[0].isdigit():
            self.word(line, pair, int(word))
            return
        name = self.name(word)
        if name.pair is not None:
            self.both(line, "add", pair, name.pair, "C", "0")
            return
        if name.length is None:
            self.word(line, pair, name.address)
        else:
            self.index(line, pair)
            self.both(line, "idx", pair, pair, str(name.address - FIRST_CELL), str(name.length))
        self.both(line, "ld_C", pair, pair)


def lowered(text):
    """The words and line of each instruction of a source, and its names; raises Unknown if they are not known."""
    lowering = Lowering(text)
    try:
        return lowering.program(), lowering.names
    except (IndexError, RecursionError, ValueError) as error:
        raise Unknown from error


def lines_of(text, code):
    """The line of each instruction, and each name's place; both None if the code is not the expected one."""
    try:
        made, names = lowered(text)
    except Unknown:
        return None, None
    wanted = [words for words, _ in made]
    if len(wanted) != len(code) or any(words != found.words[:len(words)] for words, found in zip(wanted, code)):
        return None, None
    return [line for _, line in made], names
