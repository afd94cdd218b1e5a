"""Assembly texts."""
from assembly import disassemble
from limits_rows import *
from limits_tables import largest

MOST = 128 * MIB


def text_row(name, what, full, unit, make, want):
    add(f"text-{name}", what, ["asm", "text"], full, unit, lambda n: put("text", make(n)), want)


def missing(number):
    return lambda n: (12, f"asm 2 {number(n)}")


text_row("largest", "the text of every version 2 table at its limit, by number of instructions", 65536, "instructions",
         lambda n: "".join(f"{line}\n" for line in disassemble(largest(n, 2, 40))), same(0, None))
text_row("lines", "empty lines", MOST, "bytes", lambda n: "\n" * n, missing(lambda n: n + 1))
text_row("comment", "one comment", MOST, "bytes", lambda n: "#" * n, missing(lambda n: 2))
text_row("blanks", "one line of spaces", MOST, "bytes", lambda n: " " * n, missing(lambda n: 2))
text_row("word", "one word", MOST, "bytes", lambda n: "x" * n, same(12, "asm 1 1"))
text_row("words", "words of one byte in a line", MOST, "bytes", lambda n: to_length("# ", n), missing(lambda n: 2))
text_row("beyond", "bytes, one over the limit, and half of that", MOST + 1, "bytes", lambda n: "#" * n,
         lambda n: (12, f"asm 3 {MOST}" if n > MOST else "asm 2 2"))
text_row("digits", "digits of a number", MOST, "bytes", lambda n: to_length("entry 1" + "0" * n, n), same(12, "asm 1 1"))
text_row("name", "bytes of a name", MOST, "bytes", lambda n: "cell " + "a" * (n - 20) + " int 0\nentry 0\n", same(7, f"object 2 {64 * MIB}"))
text_row("cells", "lines of cells", MOST, "bytes", lambda n: "cell a int 0\n" * ((n - 8) // 13) + "entry 0\n", same(7, f"object 2 {64 * MIB}"))
text_row("nodes", "lines of nodes", MOST, "bytes", lambda n: "node 0 memory\n" * ((n - 8) // 14) + "entry 0\n", same(7, f"object 2 {64 * MIB}"))
text_row("halts", "lines of instructions", MOST, "bytes",
         lambda n: "node 0 memory\ntype 0 0\nblock 0\n" + "halt\n" * ((n - 50) // 5) + "entry 0\n", same(7, f"object 2 {64 * MIB}"))
text_row("types", "lines of code types", MOST, "bytes", lambda n: "type 0 0\n" * ((n - 8) // 9) + "entry 0\n", same(7, f"object 2 {64 * MIB}"))
text_row("rows", "substitution rows of one jump", MOST, "bytes",
         lambda n: "node 0 memory\ntype 0 0\nblock 0\njmp_B r1 0" + " 0" * ((n - 60) // 2) + "\nentry 0\n", same(7, f"object 2 {64 * MIB}"))
