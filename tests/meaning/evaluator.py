"""The meaning of a source, by docs/SOURCE_LANGUAGE.md alone: nothing here comes from the program or its tools."""
import re

WORDS = 2 ** 64
BLANKS = re.compile(rb"(?:[ \t\r\n]+|#[^\n]*)*")
TOKEN = re.compile(rb"[A-Za-z_][A-Za-z0-9_]*|[0-9]+|==|<<|>>|[=<;()\[\]{}+\-*&|^]")
RESERVED = {"cell", "var", "while", "if", "else"}
# The operators, from those that bind least.
RANKS = [["=="], ["<"], ["&", "|", "^"], ["<<", ">>"], ["+", "-"], ["*"]]
OPERATORS = {
    "==": lambda a, b: int(a == b),
    "<": lambda a, b: int(a < b),
    "&": lambda a, b: a & b,
    "|": lambda a, b: a | b,
    "^": lambda a, b: a ^ b,
    "<<": lambda a, b: (a << b) % WORDS if b < 64 else 0,
    ">>": lambda a, b: a >> b if b < 64 else 0,
    "+": lambda a, b: (a + b) % WORDS,
    "-": lambda a, b: (a - b) % WORDS,
    "*": lambda a, b: a * b % WORDS,
}
MOST_BYTES, MOST_NAME, MOST_OPEN, MOST_OPERATORS = 1_048_576, 32, 100, 200
MOST_CELLS, MOST_NEED, MOST_WEIGHT = 1_024, 32, 65_536
TOO_LONG, BYTE, NUMBER, SYNTAX, DEEP, TWICE, UNKNOWN, CELLS, REGISTERS, WEIGHT, ARRAY, LENGTH = range(1, 13)


class Refused(Exception):
    """The number of a refusal, and what follows it."""


class Cut(Exception):
    """No turn is left."""


def tokens_of(text):
    """The tokens: kind, value and place. Signs and reserved words are kinds; the last token has the kind `end`."""
    found, at = [], 0
    while True:
        at = BLANKS.match(text, at).end()
        if at == len(text):
            return found + [("end", None, at)]
        match = TOKEN.match(text, at)
        if not match:
            raise Refused(BYTE, at)
        spelled = match[0].decode()
        if spelled[0].isdigit():
            digits = spelled.lstrip("0") or "0"
            if len(digits) > 20 or int(digits) >= WORDS:
                raise Refused(NUMBER, at)
            found.append(("number", int(digits), at))
        elif spelled[0].isalpha() or spelled[0] == "_":
            if len(spelled) > MOST_NAME:
                raise Refused(BYTE, at + MOST_NAME)
            found.append((spelled if spelled in RESERVED else "name", spelled, at))
        else:
            found.append((spelled, spelled, at))
        at = match.end()


class Parser:
    """Parses a text by the grammar. Expressions are `(number, word)`, `(name, name)`, `(index, name, expression)` and
    `(operator, expression, expression)`."""

    def __init__(self, text):
        self.tokens = tokens_of(text)
        self.next = self.open = self.operators = 0
        # The name, place, length (with its place) and word of each declaration; None for what is not there.
        self.declared = []
        # The name, the place, and whether it has an index, of each name in a statement.
        self.used = []

    def kind(self):
        return self.tokens[self.next][0]

    def take(self, kind):
        """Takes a token of this kind, and returns its value and place."""
        found, value, at = self.tokens[self.next]
        if found != kind:
            raise Refused(SYNTAX, at)
        if kind in ("(", "[", "{"):
            if self.open == MOST_OPEN:
                raise Refused(DEEP, at)
            self.open += 1
        elif kind in (")", "]", "}"):
            self.open -= 1
        self.next += 1
        return value, at

    def program(self):
        while self.kind() in ("cell", "var"):
            self.declaration()
        statements = self.statements()
        self.take("end")
        return statements

    def declaration(self):
        length = word = None
        kind, _ = self.take(self.kind())
        name, at = self.take("name")
        if kind == "cell":
            if self.kind() == "[":
                self.take("[")
                length = self.take("number")
                self.take("]")
            self.take("=")
            word, _ = self.take("number")
        self.take(";")
        self.declared.append((name, at, length, word))

    def statements(self):
        found = []
        while self.kind() in ("name", "while", "if"):
            found.append(self.statement())
        return found

    def statement(self):
        self.operators = 0
        if self.kind() == "name":
            name, index = self.place()
            self.take("=")
            value = self.expression()
            self.take(";")
            return "=", name, index, value
        kind, _ = self.take(self.kind())
        self.take("(")
        test = self.expression()
        self.take(")")
        body = self.block()
        if kind == "if" and self.kind() == "else":
            self.take("else")
            return kind, test, body, self.block()
        return kind, test, body, []

    def block(self):
        self.take("{")
        found = self.statements()
        self.take("}")
        return found

    def place(self):
        """A name with or without an index."""
        name, at = self.take("name")
        indexed = self.kind() == "["
        self.used.append((name, at, indexed))
        if not indexed:
            return name, None
        self.take("[")
        index = self.expression()
        self.take("]")
        return name, index

    def expression(self, rank=0):
        if rank == len(RANKS):
            return self.atom()
        found = self.expression(rank + 1)
        while self.kind() in RANKS[rank]:
            operator, at = self.take(self.kind())
            self.operators += 1
            if self.operators > MOST_OPERATORS:
                raise Refused(DEEP, at)
            found = operator, found, self.expression(rank + 1)
        return found

    def atom(self):
        if self.kind() == "(":
            self.take("(")
            found = self.expression()
            self.take(")")
            return found
        if self.kind() == "name":
            name, index = self.place()
            return ("name", name) if index is None else ("index", name, index)
        return "number", self.take("number")[0]


class Program:
    """A source text. `lengths` has the length of each array, None for a plain cell; `words` the declared words."""

    def __init__(self, text):
        if len(text) > MOST_BYTES:
            raise Refused(TOO_LONG, MOST_BYTES)
        parser = Parser(text)
        self.statements = parser.program()
        self.lengths, self.words, self.variables = {}, {}, []
        for name, at, length, word in parser.declared:
            if name in self.words or name in self.variables:
                raise Refused(TWICE, at)
            if word is None:
                self.variables.append(name)
            else:
                self.lengths[name] = length and length[0]
                self.words[name] = word
        self.refuse_names(parser)
        self.refuse_sizes(parser)

    def refuse_names(self, parser):
        for name, at, _ in parser.used:
            if name not in self.words and name not in self.variables:
                raise Refused(UNKNOWN, at)
        for name, at, indexed in parser.used:
            if indexed != (self.lengths.get(name) is not None):
                raise Refused(ARRAY, at)

    def refuse_sizes(self, parser):
        for _, _, length, _ in parser.declared:
            if length and not 1 <= length[0] <= MOST_CELLS:
                raise Refused(LENGTH, length[1])
        cells = sum(1 if length is None else length for length in self.lengths.values())
        if cells > MOST_CELLS:
            raise Refused(CELLS, cells)
        need = len(self.variables) + 1 + max(map(self.need, self.statements), default=0)
        if need > MOST_NEED:
            raise Refused(REGISTERS, need)
        weight = 5 + 2 * len(self.variables) + sum(map(self.weight, self.statements))
        if weight > MOST_WEIGHT:
            raise Refused(WEIGHT, weight)

    def cells(self):
        """The names of the cells, each with the name of its array or itself."""
        return [(name, name) if length is None else (f"{name}[{number}]", name)
                for name, length in self.lengths.items() for number in range(length or 1)]

    def need(self, part):
        """The need of a statement or an expression."""
        kind = part[0]
        if kind in ("number", "name"):
            return 1
        if kind == "index":
            return self.need(part[2])
        if kind in ("while", "if"):
            return max(self.need(part[1]), *map(self.need, part[2] + part[3]), 0)
        first, second = part[-2:]
        return self.need(second) if first is None else \
            max(self.need(part[2 if kind == "=" else 1]), 1 + self.need(second))

    def weight(self, part):
        """The weight of a statement or an expression."""
        kind = part[0]
        if kind == "number":
            return 2
        if kind in ("name", "index", "="):
            return (4 if part[1] in self.words else 2) + sum(self.weight(inner) for inner in part[2:] if inner)
        if kind in ("while", "if"):
            return 16 + self.weight(part[1]) + sum(map(self.weight, part[2] + part[3]))
        return 2 + self.weight(part[1]) + self.weight(part[2])


class Meaning:
    """The run of a program whose cells begin with these words, by name. It is cut when `turns` are used, or at the first test
    after `most_work`. It can be iterated once: its items are the output lines."""

    def __init__(self, program, words, turns, most_work=None):
        self.program = program
        self.most_turns, self.most_work = turns, most_work
        self.work = self.turns = 0
        self.ended = False
        self.held = {name: [0] for name in program.variables}
        for cell, name in program.cells():
            self.held.setdefault(name, []).append(words[cell])

    def __iter__(self):
        try:
            yield from self.run(self.program.statements)
            self.ended = True
        except Cut:
            pass

    def run(self, statements):
        for kind, first, second, third in statements:
            if kind == "=":
                yield from self.assign(first, second, third)
            elif kind == "if":
                yield from self.run(second if self.holds(first) else third)
            else:
                while self.holds(first):
                    self.turn()
                    yield from self.run(second)

    def turn(self):
        if self.turns == self.most_turns or self.most_work is not None and self.work > self.most_work:
            raise Cut
        self.turns += 1

    def assign(self, name, index, value):
        self.work += 1
        cells = self.held[name]
        number = 0 if index is None else self.value(index) % len(cells)
        cells[number] = self.value(value)
        if name in self.program.words:
            yield f"{name} {cells[number]}" if index is None else f"{name}[{number}] {cells[number]}"

    def holds(self, test):
        self.work += 1
        return self.value(test) != 0

    def value(self, expression):
        self.work += 1
        kind, first, *second = expression
        if kind == "number":
            return first
        if kind == "name":
            return self.held[first][0]
        if kind == "index":
            cells = self.held[first]
            return cells[self.value(second[0]) % len(cells)]
        return OPERATORS[kind](self.value(first), self.value(second[0]))
