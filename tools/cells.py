"""The cells of an object, read from its bytes."""
from common import MAGIC, Refused
from messages import named, quoted

HEADER, CELL = 48, 16
VERSIONS = 1, 2
# The name that a cell should not have: `talft recover` adds a line `again N` to those of the run.
AGAIN = "again"


def number_at(data, at, size):
    return int.from_bytes(data[at:at + size], "big")


def cells_of(path, data):
    """The place of each cell's initial word in the bytes of an object, by the cell's name."""
    if len(data) < HEADER or data[:7] != MAGIC or data[7] not in VERSIONS:
        raise Refused(f"{named(path)}: is truncated, or is of another version; `talft check` says more")
    cells, name_bytes = number_at(data, 8, 4), number_at(data, 40, 4)
    names = len(data) - name_bytes
    found, start = {}, 0
    for number in range(cells):
        at = HEADER + CELL * number
        end = number_at(data, at, 4)
        if at + CELL > names or not start < end <= name_bytes:
            raise Refused(f"{named(path)}: its table of cells is damaged; `talft check` says where")
        found[data[names + start:names + end].decode("latin-1")] = at + 8
        start = end
    return found


def no_cell(name):
    """What to say about a line of a cell that the object does not have."""
    return f"the object has no cell {quoted(name)}; give the lines of a run of this object"


def told_of_again(path):
    """What to say about an object with a cell of that name."""
    return (f"{named(path)}: the cell `{AGAIN}` has the name of the line that `talft recover` adds to those of the run: rename "
            "the cell")
