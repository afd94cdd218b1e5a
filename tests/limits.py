"""The inputs of limits.sh. `limits.py list` prints each row's command and name. `limits.py NAME full|half|N` writes the
files of that row into the current folder, and prints what the input is, its size, the power of the size with which the
work grows, the expected status and last line, the words as a table shows them, and then the words, one per line."""
import sys

sys.dont_write_bytecode = True
import limits_tables, limits_chains, limits_runs, limits_sources, limits_texts, limits_links  # noqa: E401, E402, F401
from limits_rows import COMMANDS, ROWS, put  # noqa: E402

# Arguments that depend on the size.
SPECIAL = {"N": lambda n: [str(n)], "ANSWERS": lambda n: [",".join(["18446744073709551615"] * n)],
           "DIGITS": lambda n: ["1" * n], "WORDS": lambda n: ["--steps"] * n}


def main():
    if sys.argv[1] == "list":
        for command in COMMANDS:
            print("\n".join(f"{command} {name}" for name, row in ROWS.items() if row.words[0] == command))
        return
    row = ROWS[sys.argv[1]]
    n = {"full": row.full, "half": row.half}.get(sys.argv[2]) or int(sys.argv[2])
    put("stdin", "")
    row.make(n)
    status, line = row.want(n)
    words = [word for part in row.words for word in SPECIAL.get(part, lambda n: [part])(n)]
    shown = " ".join({"ANSWERS": "LIST", "DIGITS": "N", "WORDS": "..", "object": "OBJECT", "source": "SOURCE", "text": "TEXT", "map": "MAP",
                      "faults": "LIST"}.get(part, part) for part in row.words)
    print(row.what, f"{n:,} {row.unit}", row.power, status, "*" if line is None else line, shown, sep="\n")
    print("\n".join(words))


main()
