"""Everything that the interactive debugger itself knows about the machine. It asks the program for all else.

Each fact names the part of docs/MACHINE.md that states it. tests/debugging/facts.py compares them with the program,
step by step, over random runs with strikes."""
import collections

# "Words and addresses": cell k has the address FIRST_CELL + k, instruction i the code address 1 + i.
FIRST_CELL = 1_048_576
# "State" and docs/COMMANDS.md, "Sessions of the debugger": what `reg` shows, except the counters.
REGISTERS = [f"r{i}" for i in range(64)] + ["d"]
# "Stores": a green store requires fewer pairs than this.
QUEUE_LENGTH = 8
OPERATIONS = ("add", "sub", "mul", "ltu", "eq", "and", "or", "xor", "shl", "shr")

# Two words that an instruction compares, or a sentence in `left` alone; `same` says whether the machine continues.
Compared = collections.namedtuple("Compared", "what left right same")
# Why a step is detected: a sentence, and what was compared.
Detection = collections.namedtuple("Detection", "sentence compared")


def is_fetch(position):
    """Whether the step from a position of a running machine fetches. "Steps": an instruction takes two steps."""
    return position % 2 == 0


def written_register(words):
    """The register that an instruction writes, or None. "Operations and moves", "Loads"."""
    return words[1] if words[0] in OPERATIONS or words[0] in ("mov", "idx", "ld_G", "ld_B") else None


def read_registers(words):
    """The registers whose words an instruction reads. "Steps": the name of a register is its word."""
    if words[0] in OPERATIONS:
        return [word for word in words[2:4] if word in REGISTERS]
    if words[0] in ("idx", "ld_G", "ld_B"):
        return [words[2]]
    if words[0] in ("st_G", "st_B", "bz_G", "bz_B"):
        return words[1:3]
    return [words[1]] if words[0] in ("jmp_G", "jmp_B") else []


def own_colour(words):
    """The colour of an instruction, or of the number that it takes; or None. "Steps": it is in the instruction's name,
    or before the number."""
    if words[0][-2:] in ("_G", "_B"):
        return words[0][-1]
    return words[3] if words[0] in OPERATIONS and words[3] in ("G", "B") else None


def may_write_d(words):
    """Whether an instruction may change d. "Jumps, branches and the end"."""
    return words[0][:4] in ("jmp_", "bz_G", "bz_B")


def cell_number(word, count):
    """The number of the cell with this address among `count` cells, or None."""
    return word - FIRST_CELL if FIRST_CELL <= word < FIRST_CELL + count else None


def detection(state, instruction, named=str, target=str):
    """Why the step from a state is detected, or None if it is not. The instruction is the fetched one.

    `named` and `target` format a word that is the address of a cell, or of an instruction. For a wild load this says
    what happens when no answer is left, as only the program knows the answers."""
    if instruction is None:
        return of_fetch(state)
    rule = RULES.get(instruction.words[0])
    return rule(state, instruction.words, named, target) if rule else None


def compared(state, instruction, named=str, target=str):
    """Which green and blue words the step from a state compares, whether or not it passes."""
    if instruction is None:
        return counters_compared(state)
    rule = {"st_B": pairs_compared, "jmp_B": targets_compared, "bz_B": targets_compared}.get(instruction.words[0])
    return rule(state, instruction.words, named if rule is pairs_compared else target) if rule else []


def counters_compared(state):
    """What a fetch compares."""
    return [Compared("counter", f"pcg = {state.pcg}", f"pcb = {state.pcb}", state.pcg == state.pcb)]


def pairs_compared(state, words, named):
    """What a blue store compares."""
    address, value = state.word(words[1]), state.word(words[2])
    if not state.queue:
        return [Compared("address", f"{words[1]} = {named(address)}", "the queue is empty", False)]
    oldest = state.queue[0]
    return [Compared("address", f"{words[1]} = {named(address)}", f"qa0 = {named(oldest[0])}", address == oldest[0]),
            Compared("value", f"{words[2]} = {named(value)}", f"qv0 = {named(oldest[1])}", value == oldest[1])]


def targets_compared(state, words, target):
    """What a blue jump or branch compares."""
    d, register = state.word("d"), words[2] if words[0] == "bz_B" else words[1]
    own, tested = state.word(register), state.word(words[1]) if words[0] == "bz_B" else 0
    if tested:
        return [Compared(None, f"{words[1]} = {tested}: blue does not jump, so d must be 0; d = {target(d)}", "", d == 0)]
    rows = [Compared("target", f"{register} = {target(own)}", f"d = {target(d)}", own == d)]
    jumps = Compared(None, f"{words[1]} = 0: blue jumps, so d must be its target", "", True)
    return ([jumps] if words[0] == "bz_B" else []) + rows


def of_fetch(state):
    """The rows of "Fetches"."""
    rows = counters_compared(state)
    if state.pcg != state.pcb:
        return Detection("the fetch: the green counter is not the blue one", rows)
    if state.block is None:
        return Detection("the fetch: no instruction has the address of both counters", rows)
    return None


def of_load(state, words, named, target):
    """The rows of "Loads": a wild load has no cell, and a green one no pending store either."""
    address = state.word(words[2])
    pending = words[0] == "ld_G" and any(queued == address for queued, _ in state.queue)
    if pending or state.is_cell(address):
        return None
    return Detection("a wild load: no answer is left, or the answer is `stop`",
                     [Compared("address", f"{words[2]} = {named(address)}", "no cell is there", False)])


def of_green_store(state, words, named, target):
    """The rows of `st_G` in "Stores"."""
    if len(state.queue) < QUEUE_LENGTH:
        return None
    return Detection("eight green stores are already pending",
                     [Compared("queue", f"{len(state.queue)} pairs", f"at most {QUEUE_LENGTH}", False)])


def of_blue_store(state, words, named, target):
    """The rows of `st_B` in "Stores"."""
    rows = pairs_compared(state, words, named)
    if not state.queue:
        return Detection("no green store is pending", rows)
    if not all(row.same for row in rows):
        return Detection("the blue pair does not match the oldest green one", rows)
    return None if state.is_cell(state.word(words[1])) else Detection("both pairs are equal, but no cell has the address", rows)


def of_green_jump(state, words, named, target):
    """The rows of `jmp_G` and `bz_G` in "Jumps, branches and the end"."""
    d = state.word("d")
    if d == 0:
        return None
    return Detection("a green jump is already pending: d is not 0", [Compared("d", f"d = {target(d)}", "0", False)])


def of_blue_jump(state, words, named, target):
    """The rows of `jmp_B` and `bz_B` in "Jumps, branches and the end"."""
    d, rows = state.word("d"), targets_compared(state, words, target)
    if words[0] == "bz_B" and state.word(words[1]):
        return None if d == 0 else Detection("blue falls through, but green meant to jump", rows)
    if d == 0:
        return Detection("blue jumps, but green did not: d is 0", rows)
    return None if rows[-1].same else Detection("the blue target does not match the green one", rows)


RULES = {"ld_G": of_load, "ld_B": of_load, "st_G": of_green_store, "st_B": of_blue_store, "jmp_G": of_green_jump,
         "bz_G": of_green_jump, "jmp_B": of_blue_jump, "bz_B": of_blue_jump}
