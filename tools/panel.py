"""One campaign as `talft-plot` draws it: the faults of each row and column by verdict, and their latencies."""
import array
import collections
import itertools
import operator

from common import SITES, VERDICTS, Refused
from messages import named

# The order of the verdicts, from the top of a cell to its bottom.
ORDER = ("corrupt", "detected", "masked", "idle")
# A picture of this width is not scaled down on a repository's web page.
WIDTH = 760
# The one row for all registers that no instruction names.
FOLDED = len(SITES)


class Panel:
    """The faults of a campaign."""

    def __init__(self, title, used):
        """`used` has the registers that instructions name, or is None if these are unknown."""
        self.title, self.used = title, used
        self.counts, self.shown, self.away = collections.Counter(), collections.Counter(), 0
        self.latencies = collections.Counter()
        self.steps, self.sites, self.kinds = array.array("L"), array.array("B"), array.array("B")
        self.place, self.kind = {site: at for at, site in enumerate(SITES)}, {verdict: at for at, verdict in enumerate(ORDER)}
        if used is not None:
            self.place.update((site, FOLDED) for site in SITES[:64] if site not in used)

    def take(self, columns):
        """Adds lines."""
        self.steps.extend(columns.steps)
        self.sites.extend(map(self.place.__getitem__, columns.sites))
        self.kinds.extend(map(self.kind.__getitem__, columns.verdicts))
        self.latencies.update(at - step for step, at in zip(columns.steps, columns.ats) if at is not None)
        for (site, verdict), count in columns.counts.items():
            self.counts[verdict] += count
            if self.place[site] == FOLDED:
                self.away += count
            else:
                self.shown[verdict] += count

    def end(self, path):
        """Refuses lines without a fault, after the last one."""
        if not self.steps:
            raise Refused(f"{named(path)}: has no faults to draw: its campaign had an empty list")

    def rows_here(self):
        """The sites that were struck, and the row of folded ones, by number."""
        return set(self.sites)

    def percent(self, verdict):
        """The share of a verdict among the faults at sites that are not folded, as text."""
        total = sum(self.shown.values())
        share = 100 * self.shown[verdict] / total if total else 0
        # One fault in a million must not look like none.
        return "0%" if share == 0 else "<0.1%" if share < 0.1 else "100%" if share == 100 else f"{min(share, 99.9):.1f}%"

    def still_running(self, is_cut):
        """Bounds on how many struck runs were still running at the last step, judging by the lines."""
        same = self.counts["masked"] if is_cut else 0
        return same, same + self.counts["corrupt"]


class Grid:
    """The cells of a panel, over steps and rows that it shares with the other panels."""

    def __init__(self, panel, first, length, rows, high):
        self.panel, self.first, self.length, self.rows, self.high = panel, first, length, rows, high
        self.width = -(-length // WIDTH)
        self.sort()

    def sort(self):
        """Counts the faults of each cell by verdict."""
        self.columns = (self.length - 1) // self.width + 1
        row = {site: at for at, site in enumerate(self.rows)}
        steps = map(operator.sub, self.panel.steps, itertools.repeat(self.first))
        columns = map(operator.floordiv, steps, itertools.repeat(self.width))
        counts = collections.Counter(zip(columns, self.panel.sites, self.panel.kinds))
        self.cells = collections.defaultdict(lambda: [0] * 4)
        for (column, site, verdict), count in counts.items():
            self.cells[column, row[site]][verdict] = count

    def gaps(self):
        """The share of cells that have no fault, among those at sites that always exist."""
        always = [at for at, site in enumerate(self.rows) if site == FOLDED or SITES[site][0] != "q"]
        full = sum(at in always for _, at in self.cells)
        return 1 - full / (len(always) * self.columns) if always else 0

    def widen(self, width):
        """Sets the number of steps per column."""
        self.width = width
        self.sort()

    def raster(self, colours, blank):
        """The cells as pixels, from the bottom row to the top: each as high as in the picture, and one pixel wide."""
        # Gnuplot draws no image with a single column.
        twice = 2 if self.columns == 1 else 1
        out = bytearray()
        for at in reversed(range(len(self.rows))):
            stacks = [stack(self.cells.get((column, at)), self.high - 1) for column in range(self.columns)] * twice
            out += blank * self.columns * twice
            for dot in reversed(range(self.high - 1)):
                out += b"".join(blank if kinds is None else colours[kinds[dot]] for kinds in stacks)
        return bytes(out), twice


def stack(counts, high):
    """Which verdict each pixel of a cell shows, from the top; None if there is no fault."""
    if counts is None:
        return None
    if max(counts) == sum(counts):
        return [counts.index(max(counts))] * high
    shares = [count * high / sum(counts) for count in counts]
    dots = [int(share) for share in shares]
    if counts[0]:
        # One fault among many must be visible in a narrow column.
        dots[0] = max(dots[0], high // 3)
    while sum(dots) < high:
        dots[max(range(4), key=lambda kind: shares[kind] - dots[kind])] += 1
    while sum(dots) > high:
        dots[max(range(1, 4), key=lambda kind: dots[kind])] -= 1
    return [kind for kind in range(4) for _ in range(dots[kind])]


def grids(panels):
    """The panels over the same steps and rows, with columns of the same width."""
    first = min(min(panel.steps) for panel in panels)
    length = max(max(panel.steps) for panel in panels) - first + 1
    rows = sorted(set().union(*(panel.rows_here() for panel in panels)))
    made = [Grid(panel, first, length, rows, 24 if len(rows) <= 24 else 14) for panel in panels]
    # A sample leaves gaps: wider columns close them.
    while max(grid.gaps() for grid in made) > 0.0005 and made[0].columns > 100:
        for grid in made:
            grid.widen(grid.width * 2)
    return made


def told(latencies):
    """One line on how long the faults went undetected."""
    if not latencies:
        return "No fault was detected."
    total, seen = sum(latencies.values()), 0
    for middle in sorted(latencies):
        seen += latencies[middle]
        if 2 * seen >= total:
            break
    return f"{total:,} detected: half of them within {counted(middle)}, the slowest after {counted(max(latencies))}"


def counted(steps, what="step"):
    return f"{steps:,} {what}{'' if steps == 1 else 's'}"


def total_of(panel):
    return sum(panel.counts[verdict] for verdict in VERDICTS)
