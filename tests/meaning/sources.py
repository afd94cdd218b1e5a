"""Random sources over the whole grammar, some at a limit, just beyond it or damaged, and random initial words for their
cells."""

WORDS = 2 ** 64
RESERVED = {"cell", "var", "while", "if", "else"}
# The rank of each operator; those of a higher rank bind more.
RANK = {"==": 0, "<": 1, "&": 2, "|": 2, "^": 2, "<<": 3, ">>": 3, "+": 4, "-": 4, "*": 5}
ATOM = 6
OPERATORS = list(RANK)
EDGES = [0, 1, 2, 3, 7, 8, 63, 64, 65, 255, 2 ** 31, 2 ** 32 - 1, 2 ** 32, 2 ** 63 - 1, 2 ** 63, 2 ** 63 + 1, 2 ** 64 - 2, 2 ** 64 - 1]
LENGTHS = [1, 1, 2, 2, 3, 4, 5, 7, 8, 16, 33, 100]
LIMITS = ["brackets", "braces", "operators", "cells", "names", "need", "weight", "bytes"]
# How often a source is at a limit, how often one of those is beyond it, and how often a source is damaged.
AT_LIMIT, BEYOND, DAMAGED = 0.1, 0.3, 0.04
# What may replace a token, besides another token of the source.
STRANGE = ["", ">", "%", "\0", "=", "==", "=", "<", ";", "(", ")", "[", "]", "{", "}", "-", "cell", "var", "while", "if", "else", "q", "1",
           "18446744073709551616", "n" * 33]
LETTERS = "abcdefghijklmnopqrstuvwxyzABCDEFGHIJKLMNOPQRSTUVWXYZ_"
BLANKS = [" ", " ", " ", "\n", "\n", "\t", "\r\n", "  ", " # a = 1; }\n", "\n#\n"]


def some_word(random):
    """A word, often at an edge."""
    kind = random.random()
    if kind < 0.5:
        return random.choice(EDGES)
    if kind < 0.75:
        return random.randrange(12)
    if kind < 0.85:
        return 1 << random.randrange(64)
    return random.randrange(WORDS)


class Source:
    """A random source, as tokens and the blanks before them. `arrays` has each cell's name and length, None for a plain one.
    `places` has the number of the token of its initial word, `body` that of the first token after the declarations."""

    def __init__(self, random):
        self.random = random
        self.limit = random.choice(LIMITS) if random.random() < AT_LIMIT else None
        # 1 if the source shall be beyond its limit.
        self.beyond = int(random.random() < BEYOND)
        self.tokens, self.arrays, self.places, self.variables = [], {}, {}, []
        self.busy = set()
        self.statements_left = random.choice([4, 8, 16, 30])
        self.declare()
        self.body = len(self.tokens)
        self.block(0)
        self.limit_statements()
        self.blanks = [self.blank(before, token) for before, token in zip([""] + self.tokens, self.tokens)]
        self.blanks.append(random.choice(["", "\n", " # ends here"]))
        self.damaged = random.random() < DAMAGED
        if self.damaged:
            self.damage()

    def text(self, words=None, first=()):
        """The text, with other initial words by name, and these tokens before its statements."""
        tokens = list(self.tokens)
        for name, word in (words or {}).items():
            tokens[self.places[name]] = str(word)
        parts = [part for pair in zip(self.blanks, tokens) for part in pair] + self.blanks[-1:]
        at = 2 * self.body
        found = "".join([*parts[:at], *(" " + token for token in first), *parts[at:]])
        if self.limit == "bytes":
            found += "\n#" + "x" * (1_048_576 + self.beyond - len(found) - 2)
        return found.encode()

    def damage(self):
        """Replaces a token: half of the time a name by a name, which may be undeclared."""
        names = [*self.arrays, *self.variables]
        places = [at for at, token in enumerate(self.tokens) if token in names]
        if self.random.random() < 0.5:
            self.tokens[self.random.choice(places)] = self.random.choice([*names, "undeclared"])
        else:
            self.tokens[self.random.randrange(len(self.tokens))] = self.random.choice(STRANGE + self.tokens)

    def blank(self, before, token):
        """A blank between two tokens."""
        if not (before[-1:].isalnum() or before[-1:] == "_") or not (token[0].isalnum() or token[0] == "_"):
            if self.random.random() < 0.3:
                return ""
        return self.random.choice(BLANKS)

    # Declarations.

    def name(self):
        while True:
            length = 32 if self.limit == "names" else self.random.choice([1, 1, 2, 3, 6, 32])
            found = "".join(self.random.choice(LETTERS + ("0123456789" if at else "")) for at in range(length))
            if found not in RESERVED and found not in self.arrays and found not in self.variables and found != "again":
                return found

    def declare(self):
        random = self.random
        most = random.choice([0, 1, 2, 3, 5, 8])
        if self.limit == "need":
            most = random.randrange(20, 31)
        lengths = [None] * random.choice([1, 1, 2, 3, 6]) + [random.choice(LENGTHS) for _ in range(random.choice([0, 1, 1, 2, 3]))]
        if self.limit == "cells" and random.random() < 0.4:
            lengths = [random.choice([0, 1025]) if self.beyond else 1024]
        elif self.limit == "cells":
            lengths.append(1024 + self.beyond - sum(length or 1 for length in lengths))
        kinds = lengths + ["var"] * most
        random.shuffle(kinds)
        for kind in kinds:
            name = self.name()
            if kind == "var":
                self.variables.append(name)
                self.tokens += ["var", name, ";"]
            else:
                self.arrays[name] = kind
                extent = [] if kind is None else ["[", self.number(kind), "]"]
                self.tokens += ["cell", name, *extent, "=", self.number(some_word(random)), ";"]
                self.places[name] = len(self.tokens) - 2
        # The need of an expression that still fits.
        self.most_need = 32 - 1 - len(self.variables)

    def number(self, word):
        return ("0" * self.random.choice([1, 2, 30]) if self.random.random() < 0.03 else "") + str(word)

    # Expressions: a list of tokens, and their rank.

    def atom(self, need, size, open_now):
        random = self.random
        kind = random.random()
        plain = [name for name, length in self.arrays.items() if length is None] + self.variables * 2
        arrays = [name for name, length in self.arrays.items() if length is not None]
        if kind < 0.3 or not plain and (kind < 0.4 or open_now >= 100):
            return [self.number(some_word(random))], ATOM
        if plain and (kind < 0.75 or not arrays or open_now >= 100):
            return [random.choice(plain)], ATOM
        name = random.choice(arrays)
        return [name, "[", *self.index(self.arrays[name], need, size // 2, open_now + 1), "]"], ATOM

    def index(self, length, need, size, open_now):
        """An index, often near the length of its array."""
        random = self.random
        if random.random() < 0.4:
            return [self.number(random.choice([0, 0, 1, length // 2, max(length, 1) - 1, length, length + 1, 2 * length, WORDS - 1]))]
        return self.expression(need, size, open_now)[0]

    def expression(self, need, size, open_now, exact=False):
        """An expression with at most this need, and at most (or, if `exact`, just) `size` operators outside its atoms."""
        random = self.random
        if size < 1 or need < 2 and not exact:
            return self.atom(need, 0 if exact else size, open_now)
        operator = random.choice(OPERATORS)
        rank = RANK[operator]
        right = random.randrange(size) if exact else size // 2 - random.randrange(2)
        if need < 3:
            right = 0
        left = size - 1 - right if exact or random.random() < 0.7 else 0
        first = self.bracketed(self.expression(need, left, open_now + 1, exact), rank, open_now)
        if operator in ("<<", ">>") and not exact and random.random() < 0.6:
            second = [self.number(random.choice([0, 1, 2, 3, 8, 31, 32, 33, 62, 63, 64, 65, 66, 127, 128]))]
        else:
            second = self.bracketed(self.expression(need - 1, right, open_now + 1, exact), rank + 1, open_now)
        return first + [operator] + second, rank

    def bracketed(self, found, rank, open_now):
        """Brackets an expression if its rank is too low, and sometimes if not."""
        tokens, own = found
        needless = open_now < 90 and self.random.random() < 0.07
        return ["(", *tokens, ")"] if own < rank or needless else tokens

    def some_expression(self, open_now):
        need = min(self.most_need, self.random.choice([1, 2, 3, 4, 31]))
        return self.expression(max(need, 1), self.random.choice([0, 0, 1, 1, 2, 3, 5, 8, 20]), open_now)[0]

    # Statements.

    def block(self, depth):
        for _ in range(self.random.choice([0, 1, 2, 3, 4]) if depth else 20):
            if self.statements_left > 0:
                self.statements_left -= 1
                self.statement(depth)

    def statement(self, depth):
        kind = self.random.random()
        if kind < 0.15 and depth < 6:
            self.choice(depth)
        elif kind < 0.33 and depth < 6:
            self.loop(depth)
        else:
            self.assignment(depth)

    def assignment(self, depth):
        random = self.random
        targets = [*self.arrays, *self.arrays, *(name for name in self.variables if name not in self.busy)]
        name = random.choice([target for target in targets if target not in self.busy] or targets)
        length = self.arrays.get(name)
        self.tokens.append(name)
        need = self.most_need
        if length is not None:
            self.tokens += ["[", *self.index(length, max(need, 1), random.choice([0, 1, 2, 4]), depth + 1), "]"]
            need -= 1
        self.tokens += ["=", *self.expression(max(min(need, random.choice([1, 2, 3, 4, 31])), 1),
                                              random.choice([0, 1, 1, 2, 3, 5, 8, 20]), depth)[0], ";"]

    def choice(self, depth):
        self.tokens += ["if", "(", *self.some_expression(depth + 1), ")", "{"]
        self.block(depth + 1)
        self.tokens.append("}")
        if self.random.random() < 0.6:
            self.tokens += ["else", "{"]
            self.block(depth + 1)
            self.tokens.append("}")

    def loop(self, depth):
        """A loop; mostly one that ends, with a counter that its body does not change."""
        random = self.random
        plain = [name for name in (*self.variables, *self.arrays) if self.arrays.get(name) is None and name not in self.busy]
        kind = random.random()
        if kind < 0.75 and plain and self.most_need > 2:
            self.counted(random.choice(plain), depth)
            return
        test = ["1"] if kind > 0.97 else self.some_expression(depth + 1)
        self.tokens += ["while", "(", *test, ")", "{"]
        self.block(depth + 1)
        self.tokens.append("}")

    def counted(self, name, depth):
        random = self.random
        kind = random.choice(["up", "up", "down", "halves"])
        bound = [str(random.randrange(6))]
        if random.random() < 0.4 and self.most_need > 4:
            # The bound is a word of the program.
            bound = ["(", *self.some_expression(depth + 1), ")", random.choice(["&", "&", ">>"]), random.choice(["7", "3", "61"])]
            bound = ["(", *bound, ")"]
        if kind == "halves":
            if random.random() < 0.6:
                self.tokens += [name, "=", *self.some_expression(depth), ";"]
            test, step = [name], [name, "=", name, ">>", random.choice(["1", "7", "13"]), ";"]
        elif kind == "down":
            self.tokens += [name, "=", *bound, ";"]
            test, step = [name], [name, "=", name, "-", "1", ";"]
        else:
            self.tokens += [name, "=", random.choice(["0", "0", "1"]), ";"]
            test, step = [name, "<", *bound], [name, "=", name, "+", random.choice(["1", "1", "2"]), ";"]
        self.tokens += ["while", "(", *test, ")", "{"]
        self.busy.add(name)
        first = random.random() < 0.3
        self.tokens += step if first else []
        self.block(depth + 1)
        self.tokens += [] if first else step
        self.busy.discard(name)
        self.tokens.append("}")

    # Statements that reach a limit.

    def limit_statements(self):
        random = self.random
        target = next((name for name, length in self.arrays.items() if length is None), None)
        if self.limit == "brackets":
            opened = 100 + self.beyond
            self.tokens += [target, "=", *["("] * opened, *self.atom(1, 0, 100)[0], *[")"] * opened, ";"]
        elif self.limit == "braces":
            self.nested(target, 99 + self.beyond)
        elif self.limit == "operators":
            inner = self.expression(max(self.most_need, 1), 200 + self.beyond, 0, True)[0]
            self.tokens += [target, "=", *inner, ";"]
        elif self.limit == "need":
            # Each word is kept while the bracket after it is computed.
            inner = self.atom(1, 0, 100)[0]
            for _ in range(self.most_need - 1 + self.beyond):
                inner = [*self.atom(1, 0, 100)[0], random.choice(["+", "-", "^"]), "(", *inner, ")"]
            self.tokens += [target, "=", *inner, ";"]
        elif self.limit == "weight":
            self.heavy(target)

    def nested(self, target, count):
        """As many open braces, and a bracket in the innermost block."""
        random, closed = self.random, []
        for _ in range(count):
            kind = random.random()
            test = [self.number(random.choice([0, 1, 1, 1]))] if kind < 0.5 else [target, random.choice(["<", "=="]), "9"]
            self.tokens += [random.choice(["if", "if", "if", "while"]), "(", *test, ")", "{"]
            closed.append("}")
        self.tokens += [target, "=", "(", target, "+", "1", ")", ";", *closed]

    def heavy(self, target):
        """Fills a program up to the greatest weight, 65,535 (a weight is odd), or 65,537."""
        left = 65_535 + 2 * self.beyond - self.weighed()
        while left >= 10:
            operators = self.random.choice([0, 0, 1])
            step = 4 + 2 + 4 * operators
            if left - step in (2, 4):
                continue
            self.tokens += [target, "=", str(some_word(self.random)), *["+", "3"] * operators, ";"]
            left -= step
        if left == 6:
            self.tokens += [target, "=", "7", ";"]
        elif left == 8 and self.variables:
            self.tokens += [target, "=", target, ";"]

    def weighed(self):
        """The weight of the tokens so far."""
        names = {name: 4 for name in self.arrays} | {name: 2 for name in self.variables}
        body = self.tokens[self.body:]
        return 5 + 2 * len(self.variables) + sum(
            names.get(token, 16 if token in ("if", "while") else 2 if token in RANK or token[0].isdigit() else 0) for token in body)


def spelled(random, word):
    """A word as `talft-set` takes it: in decimal, in hex, or negative."""
    return random.choice([str(word), str(word), hex(word), str(word - WORDS) if word >= WORDS // 2 else str(word)])
