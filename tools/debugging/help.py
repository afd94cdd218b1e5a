"""The help of the prompt: how each command is written, what it does, and an example."""

# The command's form, what it does in one line, an example, and more for `help CMD`.
HELP = {
    "step": ("step [N], s", "N steps forward (1)", "step 4", "an instruction takes two steps: its fetch and its execution"),
    "next": ("next [N], n", "N instructions forward (1)", "next 2", "from within an instruction, to its end"),
    "line": ("line [N]", "N source lines forward (1)", "line", "only if the lines of a source are known"),
    "back": ("back [N], rs", "N steps back (1)", "back 8", "it forgets strikes made later; `undo` brings them back"),
    "reverse-next": ("reverse-next [N], rn", "N instructions back (1)", "rn", ""),
    "reverse-line": ("reverse-line [N], rl", "N source lines back (1)", "rl", ""),
    "continue": ("continue, c", "forward to a breakpoint, a change of a watched word, or the end", "continue",
                 "it also stops in an endless loop, and without a terminal after 1,000,000 steps. Ctrl-C interrupts it:\n"
                 "the session stays where the run got to"),
    "reverse-continue": ("reverse-continue, rc", "back to a breakpoint, before a change, or the start", "rc", ""),
    "until": ("until [PLACE]", "forward to a place, or past this instruction or line", "until 1:0",
              "PLACE is as for `break`: sieve.src:11 is a line; breakpoints also halt"),
    "finish": ("finish, fin", "forward out of this block", "finish",
               "to the start of the next block that the run reaches; breakpoints also halt"),
    "goto": ("goto POSITION, g", "to a position, forward or back", "goto 12",
             "positions: see `help positions`; `until` goes to a place or a line"),
    "run": ("run", "to the start", "run", "planned strikes stay"),
    "end": ("end", "to the end of the run, past breakpoints", "end", "at most 1,000,000 steps"),
    "break": ("break PLACE [if CONDITION] [hit N], b", "set a breakpoint", "break 0:2 if r1 == 5",
              "PLACE is B I, B:I, bB, *ADDRESS, a label, or a line such as 11 or sieve.src:11. A line may have several\n"
              "parts: a `while` has its entry and its test. It halts at each. CONDITION is like `r1 == 5 and out < 9`:\n"
              "only `and` joins comparisons, which are of registers, cells, variables and numbers. N is the first hit\n"
              "that halts. `break` alone lists all"),
    "tbreak": ("tbreak PLACE ..", "set a breakpoint for one halt", "tbreak 1:0", "like `break`"),
    "watch": ("watch CELL|REG|VARIABLE, w", "halt where the word or its colour has changed", "watch out",
              "a variable's words of both colours are watched"),
    "delete": ("delete [N..], d", "forget breakpoints and watches by number, or all", "delete 1", ""),
    "display": ("display [WORD..]", "print these words after each move", "display r1 out", "`display` alone prints them now"),
    "undisplay": ("undisplay [WORD..]", "stop displaying these words, or all", "undisplay out", ""),
    "info": ("info TOPIC, i", "show a topic", "info breaks", ""),
    "registers": ("registers [all|REG..], r", "both colours side by side", "registers",
                  "`*` marks pairs that differ; `~` marks those that differ even without a strike, as between a green\n"
                  "instruction and its blue counterpart"),
    "queue": ("queue", "the pending stores, oldest first", "queue", ""),
    "cells": ("cells", "all cells", "cells", ""),
    "print": ("print[/x|/b|/o|/d] WORD.., p", "words by name", "print/x r1 out",
              "registers, d, pcg, pcb, qa0 to qv7, cells, variables"),
    "x": ("x[/N] CELL|ARRAY", "N cells from this one on (1)", "x/3 out",
          "it stops at the end of an array; a base may follow N, as in x/3x"),
    "disassemble": ("disassemble [N|PLACE], disas", "code: N instructions (5) before and after, here or at a place",
                    "disas 9", "operands: see `help operands`; a mnemonic: `help bz_B`"),
    "list": ("list [LINE|PLACE], l", "ten lines of the source or the assembly text", "list 4",
             "around the place, or around a line; `list` again shows the next ten.\n"
             "Of an object alone it shows what `talft dis` writes"),
    "where": ("where, bt", "position, status, counters", "where", ""),
    "zap": ("zap SITE WORD, z", "strike now: the word at SITE becomes WORD", "zap r1 6",
            "sites: see `help sites`; strikes: see `help faults`"),
    "flip": ("flip SITE BIT", "strike now: flip one bit, 0 to 63", "flip r1 0", "sites: see `help sites`"),
    "plan": ("plan STEP:SITE:WORD", "strike whenever position STEP is passed", "plan 4:r1:6", "until `unplan`"),
    "unplan": ("unplan [STRIKE]", "forget planned strikes, or this one", "unplan 4:r1:6", ""),
    "outputs": ("outputs [N], o", "how many outputs there are, and the last N (20)", "outputs 5", ""),
    "explain": ("explain, e", "why the run was detected or corrupt, and the path of the fault", "explain", ""),
    "diff": ("diff", "words that differ from the run without strikes", "diff", "at this position"),
    "undo": ("undo, u", "return to where the last move or strike began", "undo", "strikes that the move forgot come back"),
    "source": ("source SCRIPT", "run the commands of a file", "source script",
               "they may be lines of `talft debug`; a command that is refused ends the script"),
    "record": ("record FILE", "keep this session as a script of `talft debug`", "record script",
               "it prints the command that runs the script again"),
    "help": ("help [CMD|TOPIC], h, ?", "this list; `help break` says more about a command", "help break", ""),
    "quit": ("quit, q", "end", "quit", ""),
}
SHORT = {"s": "step", "n": "next", "l": "list", "rs": "back", "reverse-step": "back", "rn": "reverse-next",
         "r": "registers", "rl": "reverse-line", "c": "continue", "rc": "reverse-continue", "g": "goto", "b": "break",
         "w": "watch", "d": "delete", "i": "info", "p": "print", "disas": "disassemble", "z": "zap", "o": "outputs",
         "e": "explain", "u": "undo", "h": "help", "?": "help", "q": "quit", "go": "continue", "reg": "print",
         "cell": "print", "stepi": "step", "si": "step", "nexti": "next", "ni": "next", "bt": "where",
         "backtrace": "where",
         "fin": "finish"}
INFO = ["registers", "queue", "cells", "breaks", "strikes", "position", "outputs", "names"]
# The commands that an empty line repeats, and those that take no argument.
AGAIN = {"step", "next", "line", "back", "reverse-next", "reverse-line", "continue", "reverse-continue"}
ALONE = {"continue", "reverse-continue", "finish", "run", "end", "undo", "queue", "cells", "where", "explain", "diff",
         "quit"}
# Commands of other debuggers, and what to use here.
ELSEWHERE = {"set": "`zap` changes a word in a register: a strike; cells cannot be changed (`talft-set` changes their initial words)",
             "layout": "`talft-debugger FILE --tui` shows a full screen", "start": "`run` goes to the start",
             "kill": "`run` goes to the start, `quit` ends", "up": "`where` shows the place; there are no calls",
             "down": "`where` shows the place; there are no calls",
             "locals": "`info names` says where names are kept, `print` and `display` write their words",
             "frame": "`where` shows the place; there are no calls",
             "clear": "`delete` forgets breakpoints", "jump": "`goto` goes to a position",
             "advance": "`until` goes to a place", "tui": "`talft-debugger FILE --tui` shows a full screen"}
SITES_TOLD = """r0 to r31           green words, as the compiler uses them; each register holds a colour and a word
r32 to r63          blue words: the second computation, of rI in r(I + 32)
d                   what a green jump leaves for the blue one: the target's address, or 0 where none is pending
pcg, pcb            the green and the blue program counter; they are equal at each fetch, or the machine stops itself
qaN, qvN            the address and the value of the pending store N; 0 is the oldest, and 7 the last possible
A cell is not a site: no fault strikes memory."""
D_TOLD = """d passes a jump's target from its green half to its blue half. `jmp_G r2` puts its target there; `jmp_B r34`
jumps if its own target is the same, and sets d to 0 again. `bz_G` and `bz_B` do so if they branch. If the two disagree,
the machine stops itself: detected. So a strike that changes d is detected by the next jump or branch."""
FAULTS_TOLD = """A fault is one strike: before step STEP, the word at SITE becomes WORD. The colour stays. `zap` and `flip`
strike here, `plan STEP:SITE:WORD` (and --fault) at STEP whenever the session passes it. Numbers are decimal, or
hexadecimal as 0x10. A fault is masked if the outputs are those of the run without it, detected if the machine
has stopped itself, idle if nothing was at the site, and corrupt if the outputs differ. `explain` says which
and why. In an object that the checker accepts, no single fault is corrupt."""
# What an instruction does: docs/MACHINE.md has the rows.
MNEMONICS = {
    **{name: f"{name} rd rs rt  or  {name} rd rs B 5: rd becomes {told}, with the colour of rs" for name, told in (
        ("add", "the sum"), ("sub", "the difference"), ("mul", "the product"), ("ltu", "1 if rs is less (unsigned), else 0"),
        ("eq", "1 if both are equal, else 0"), ("and", "the bits set in both"), ("or", "the bits set in either"),
        ("xor", "the bits set in only one"), ("shl", "rs shifted left; 0 for 64 places or more"),
        ("shr", "rs shifted right; 0 for 64 places or more"))},
    "mov": "mov rd G 7 int: rd becomes the number with its colour; its type is for the checker",
    "idx": "idx rd rs FIRST LENGTH: rd becomes the address of the cell FIRST + (rs modulo LENGTH)",
    "ld_G": "ld_G rd rs: rd becomes the newest pending store to the address rs, or the word of the cell there",
    "ld_B": "ld_B rd rs: rd becomes the word of the cell at the address rs; pending stores are ignored",
    "st_G": "st_G ra rv: the pair (address ra, value rv) becomes the newest pending store; detected if 8 are pending",
    "st_B": "st_B ra rv: if the oldest pending store is (ra, rv), it is committed as an output; else detected",
    "jmp_G": "jmp_G rt: d becomes rt; detected if a jump is already pending (d is not 0)",
    "jmp_B": "jmp_B rt ..: jumps if d is not 0 and rt is the same as d; else detected. d becomes 0",
    "bz_G": "bz_G rz rt: if rz is 0, d becomes rt; else nothing changes. Detected if d was not 0",
    "bz_B": "bz_B rz rt ..: if rz is 0, like jmp_B rt; if not, goes on if d is 0, else detected",
    "halt": "halt: the machine is done",
}
TOPICS = {
    **{name: f"{told}\n(docs/MACHINE.md; operands: `help operands`)" for name, told in MNEMONICS.items()},
    "sites": SITES_TOLD, "d": D_TOLD, "faults": FAULTS_TOLD,
    "positions": """A session `at K` has taken K steps. The next step leads to K + 1.
A strike at step K is made at position K, before that step: `at K` shows it already made.
The effect of a step shows at the next position: a run that shows `detected` at 12 was detected by step 11:
`explain` says `detected at step 11`, and a campaign reports `detected 11`.
An instruction is fetched by a step from an even position, and executed by the next.""",
    "operands": """B 0, G 5            a number with its colour, blue or green
r1, r33             a register; the compiler pairs rI (green) with r(I + 32) (blue)
mov r0 G 7 ref:int  the number 7, and its type for the checker
idx r1 r2 4 30      the address of one of the 30 cells from cell 4: number r2 modulo 30
jmp_B r34 0 7 4     jumps to the address in r34; the numbers after it fill in the unknowns of the target's code type,
                    for the checker. Only `disassemble` shows them""",
}


def help_of(name):
    """The full help of a command, as lines."""
    form, told, example, more = HELP[name]
    lines = [form, f"  {told}"] + [f"  {line}" for line in more.splitlines()]
    topics = [f"  topics: {' '.join(INFO)}"] if name == "info" else []
    return lines + topics + [f"  example: {example}"]


def help_lines():
    """All commands, each with an example."""
    width = max(len(example) for _, _, example, _ in HELP.values())
    lines = [f"{'example':<{width}}  what the command does"]
    lines += [f"{example:<{width}}  {told}" + short(name) for name, (_, told, example, _) in HELP.items()]
    return lines + ["`help break` says more about a command. `help positions`, `help sites`, `help d`, `help faults` and",
                    "`help operands` explain terms, and `help bz_B` an instruction.",
                    "A command may be abbreviated if no other begins the same way. On a terminal an empty line repeats the last",
                    "move."]


def short(name):
    """The short form of a command in brackets, or an empty text."""
    found = [other for other, whole in SHORT.items() if whole == name and len(other) <= 2 and other.isalpha()]
    return f" ({found[0]})" if found else ""
