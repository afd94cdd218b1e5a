"""Sources, and demonstrations."""
from limits_objects import *
from limits_rows import *

# Sources.


def source_row(name, what, full, unit, make, wants, power=1, extra=None):
    for command, want in wants.items():
        words = [command, "source"] + (extra or {}).get(command, [])
        add(f"source-{name}-{command}", what, words, full, unit, lambda n: put("source", make(n)), want, power=power)


def not_a_source(line):
    return {command: (line if callable(line) else same(6, line)) for command in SOURCE_COMMANDS}


DONE = {"compile": same(0, None), "exec": same(0), "mean": same(0)}
for name, text, line in [
        ("name", "a ", "4 2"), ("long-name", "a", "2 32"), ("number", "1 ", "4 0"), ("digits", "0", "4 0"), ("nines", "9", "3 0"),
        ("cell", "cell ", "4 5"), ("var", "var ", "4 4"), ("while", "while ", "4 6"), ("if", "if ", "4 3"), ("else", "else ", "4 0"),
        ("equals", "= ", "4 0"), ("equal", "==", "4 0"), ("semicolon", ";", "4 0"), ("bracket", "(", "4 0"),
        ("bracket-end", ")", "4 0"), ("brace", "{", "4 0"), ("brace-end", "}", "4 0"), ("plus", "+", "4 0"), ("minus", "-", "4 0"),
        ("star", "*", "4 0"), ("less", "<", "4 0"), ("index", "[", "4 0"), ("index-end", "]", "4 0"),
        ("and", "&", "4 0"), ("or", "|", "4 0"), ("xor", "^", "4 0"), ("up", "<<", "4 0"), ("down", ">>", "4 0"),
        ("indexed", "a[", "5 201"), ("zero", "\0", "2 0"), ("other", "%", "2 0")]:
    source_row(name, "`%s` repeated" % {"\0": "a zero byte"}.get(text, text.strip()), MIB, "bytes",
               lambda n, text=text: to_length(text, n), not_a_source(f"source {line}"))
for name, what, text in [("spaces", "spaces", " "), ("lines", "line feeds", "\n"), ("comment", "one comment", "#"),
                         ("comments", "comments", "#\n")]:
    source_row(name, what, MIB, "bytes", lambda n, text=text: to_length(text, n), DONE)
source_row("examined", "256 assignments with indices, and comments", MIB, "bytes",
           lambda n: to_length("cell a[2]=0;var v;" + "v=a[1];" * 256, 1810) + to_length("#\n", n - 1810), DONE)
source_row("long", "bytes, one over the limit, and half of that", MIB + 1, "bytes", lambda n: " " * n,
           {c: (lambda n, c=c: (6, "source 1 1048576") if n > MIB else DONE[c](n)) for c in SOURCE_COMMANDS})
source_row("zeros-number", "a number of zeros", MIB, "bytes", lambda n: "var x;x=" + "0" * (n - 9) + ";", DONE)


def deep(opening, inner, closing, depth):
    return opening * depth + inner + closing * depth


for depth in (100, 101):
    for name, what, before, parts, after, place in [
            ("brackets", "open brackets", "var x;x=", ("(", "1", ")"), ";", lambda d: 8 + d - 1),
            ("braces", "open braces", "", ("while(0){", "", "}"), "", lambda d: 9 * (d - 1) + 5),
            ("ifs", "open braces of choices", "", ("if(1){", "", "}"), "", lambda d: 6 * (d - 1) + 2)]:
        source_row(f"{name}-{depth}", what, depth, "levels",
                   lambda n, b=before, p=parts, a=after: b + deep(*p, n) + a,
                   {c: (lambda n, c=c, p=place: (6, f"source 5 {p(n)}") if n > 100 else DONE[c](n)) for c in SOURCE_COMMANDS})


def declared(before, after, digits=6, order=None, prefix="n"):
    width = len(before) + len(prefix) + digits + len(after)

    def make(n):
        count = n // width
        numbers = range(count) if order is None else order(count)
        return "".join(f"{before}{prefix}{number:0{digits}d}{after}" for number in numbers)
    return make, width


def shuffled(count):
    return [number * 7919 % 999983 for number in range(count)]


for name, what, order, digits in [("", "variables", None, 6), ("falling-", "variables in falling order", lambda c: range(c, 0, -1), 6),
                                  ("mixed-", "variables in mixed order", shuffled, 6), ("long-", "variables of 32 bytes", None, 31)]:
    make, width = declared("var ", ";", digits, order)
    source_row(f"{name}variables", f"declarations of {what}", MIB, "bytes", make,
               not_a_source(lambda n, w=width: (6, f"source 9 {n // w + 1}")))
for name, digits in [("", 6), ("long-", 31)]:
    make, width = declared("cell ", "=0;", digits)
    source_row(f"{name}cells", "declarations of cells" + (" of 32 bytes" if digits == 31 else ""), MIB, "bytes", make,
               not_a_source(lambda n, w=width: (6, f"source 8 {n // w}")))
make_variables, _ = declared("var ", ";")
source_row("twice", "declarations, the last repeated", MIB, "bytes",
           lambda n: make_variables(n - 12) + "var n000000;", not_a_source(lambda n: (6, f"source 6 {(n - 12) // 12 * 12 + 4}")))
source_row("once-more", "declarations of one name", MIB, "bytes", lambda n: "var a;" * (n // 6), not_a_source("source 6 10"))
source_row("unknown", "assignments, the last to a name that is not declared", MIB, "bytes",
           lambda n: "var x;" + "x=x;" * (n // 4 - 3) + "y=1;",
           not_a_source(lambda n: (6, f"source 7 {6 + n // 4 * 4 - 12}")))
source_row("heavy", "assignments", MIB, "bytes", lambda n: "var x;" + "x=x;" * (n // 4 - 2),
           not_a_source(lambda n: (6, f"source 10 {7 + 4 * (n // 4 - 2)}")))
source_row("loops", "loops", MIB, "bytes", lambda n: "while(0){}" * (n // 10), not_a_source(lambda n: (6, f"source 10 {5 + n // 10 * 18}")))
source_row("choices", "choices", MIB, "bytes", lambda n: "if(0){}else{}" * (n // 13),
           not_a_source(lambda n: (6, f"source 10 {5 + n // 13 * 18}")))
source_row("bare-expressions", "expressions of 200 operators", MIB, "bytes",
           lambda n: "var x;" + ("x=" + "x+" * 200 + "x;") * ((n - 6) // 404),
           not_a_source(lambda n: (6, f"source 10 {7 + (n - 6) // 404 * (2 + 201 * 2 + 200 * 2)}")))
source_row("operators", "operators in one assignment", 201, "operators", lambda n: "var x;x=" + "x+" * n + "x;",
           {c: (lambda n, c=c: (6, f"source 5 {8 + 2 * 200 + 1}") if n > 200 else DONE[c](n)) for c in SOURCE_COMMANDS})
source_row("weight", "weight of assignments of `1` to a cell", 65535, "weight",
           lambda n: "cell out=0;var a;var b;" + "out=1;" * ((n - 9) // 6),
           {"compile": same(0, None), "exec": same(0, "out 1"), "mean": same(0, "out 1")})
source_row("over-weight", "weight over the limit, and half of that", 65537, "weight",
           lambda n: "cell out=0;" + "out=1;" * ((n - 5) // 6),
           {c: (lambda n, c=c: (6, "source 10 65537") if n > 65536 else
                {"compile": (0, None), "exec": (0, "out 1"), "mean": (0, "out 1")}[c]) for c in SOURCE_COMMANDS})

# Arrays.
for depth in (100, 101):
    source_row(f"indices-{depth}", "nested indices", depth, "levels", lambda n: "cell a[2]=0;var x;x=" + deep("a[", "1", "]", n) + ";",
               {c: (lambda n, c=c: (6, f"source 5 {20 + 2 * 100 + 1}") if n > 100 else DONE[c](n)) for c in SOURCE_COMMANDS})
for name, what, length, wants in [
        ("arrays", "declarations of arrays of 1,024 cells", "1024", lambda w: not_a_source(lambda n: (6, f"source 8 {n // w * 1024}"))),
        ("long-arrays", "declarations of arrays of 1,025 cells", "1025", lambda w: not_a_source("source 12 13")),
        ("widest-arrays", "declarations of arrays of 2^64 - 1 cells", "18446744073709551615", lambda w: not_a_source("source 12 13"))]:
    make, width = declared("cell ", f"[{length}]=0;")
    source_row(name, what, MIB, "bytes", make, wants(width))
source_row("length-digits", "digits of a length", MIB, "bytes", lambda n: to_length("cell a[" + "9" * n, n), not_a_source("source 3 7"))
source_row("misused", "assignments, the last to an array without an index", MIB, "bytes",
           lambda n: "cell a[2]=0;var x;" + "x=x;" * (n // 4 - 6) + "a=1;",
           not_a_source(lambda n: (6, f"source 11 {18 + n // 4 * 4 - 24}")))
source_row("bits", "weight of operations on bits", 65530, "weight",
           lambda n: "var x;" + "x=x<<x>>x&x|x^x;" * ((n - 7) // 24), DONE)
ARRAY = "cell a[1024]=0;var i;"
source_row("stores-at", "weight of assignments of `1` to a cell of 1,024", 65535, "weight", lambda n: ARRAY + "a[1]=1;" * ((n - 7) // 8),
           {"compile": same(0, None), "exec": same(0, "a[1] 1"), "mean": same(0, "a[1] 1")})
source_row("loads-at", "weight of loads from a cell of 1,024", 65530, "weight", lambda n: ARRAY + "i=a[i];" * ((n - 7) // 8), DONE)
source_row("nested-loads", "weight of loads nested 99 deep", 65530, "weight",
           lambda n: ARRAY + ("i=" + deep("a[", "i", "]", 99) + ";") * ((n - 7) // 400), DONE)

VARIABLES = "".join(f"var v{k};" for k in range(29))
source_row("wide-loops", "weight of loops over 29 variables", 65530, "weight",
           lambda n: VARIABLES + "while(v0){v1=v2;}" * ((n - 63) // 22), DONE)
source_row("wide-choices", "weight of choices over 29 variables", 65530, "weight",
           lambda n: VARIABLES + "if(v0){v1=v2;}else{v2=v1;}" * ((n - 63) // 26), DONE)
CELLS = "".join(f"cell c{k}=0;" for k in range(1024))
source_row("many-cells", "weight of loops that store, with 1,024 cells", 65530, "weight",
           lambda n: CELLS + "while(c1){c2=c3;}" * ((n - 5) // 28), DONE)
source_row("squares", "weight of assignments `a=a*a;`", 65530, "weight", lambda n: "var a;a=3;" + "a=a*a;" * ((n - 11) // 8), DONE)
source_row("compared", "weight of assignments `a=a<b;`", 65530, "weight", lambda n: "var a;var b;" + "a=a<b;" * ((n - 9) // 8), DONE)
source_row("doubled", "weight of assignments of sums in a loop", 65530, "weight",
           lambda n: "var a;var b;var c;while(c){" + "a=a+b;b=b+a;" * ((n - 29) // 16) + "}", DONE)

for name, what, text, line, turns in [
        ("turns", "turns of a loop", "var i;while(1){i=i+1;}", "", 5 * 10 ** 7),
        ("puts", "turns that write a line", "cell out=0;while(1){out=1;}", "out 1", 2 * 10 ** 6),
        ("loads", "turns that load a cell of 1,024", ARRAY + "while(1){i=a[i]+i+1;}", "", 10 ** 7),
        ("terms", "turns over an expression of 200 operators", "var x;while(1){x=" + "x+" * 200 + "x;}", "", 10 ** 6)]:
    source_row(name, what, turns, "turns", lambda n, text=text: text, {"mean": same(9, line)}, extra={"mean": ["--turns", "N"]})
    steps = {"turns": 10 ** 9, "puts": 5 * 10 ** 7, "loads": 5 * 10 ** 8, "terms": 10 ** 9}[name]
    source_row(f"{name}-steps", what.replace("turns", "steps"), steps, "steps", lambda n, text=text: text, {"exec": same(9, line)},
               extra={"exec": ["--steps", "N"]})
# The most that one turn can take: a loop of a whole source.
for name, what, text, line, turns in [
        ("most", "turns over 81 expressions of 200 operators", "var x;while(1){" + ("x=" + "x|" * 200 + "x;") * 81 + "}", "", 20000),
        ("most-puts", "turns that each write 10,911 lines", "cell out=0;while(1){" + "out=1;" * 10911 + "}", "out 1", 1000)]:
    source_row(name, what, turns, "turns", lambda n, text=text: text, {"mean": same(9, line)}, extra={"mean": ["--turns", "N"]})

# Demonstrations.
add("demo", "turns of a demonstration", ["demo", "N"], 10921, "turns", lambda n: None, same(0, None))
