"""Draws panels with gnuplot, as `talft-plot` and `talft-report` show them."""
import collections
import errno
import os
import signal
import struct
import subprocess
import zlib

from common import SITES, VERDICTS, Refused, put
from messages import reason
from panel import FOLDED, ORDER, WIDTH, counted, grids, told, total_of

# The colours of Okabe and Ito, distinguishable with every kind of colour blindness; grey and white for the rest.
COLOURS = {"masked": "56b4e9", "detected": "0072b2", "idle": "bbbbbb", "corrupt": "d55e00"}
NOTHING = "ffffff"
LEFT, RIGHT, TOP, GAP, BOTTOM, HISTOGRAM = 74, 26, 112, 92, 70, 160
MOST_RINGS = 50
# PNG takes font sizes in points, SVG in pixels.
TERMINALS = {".png": "pngcairo font 'sans,10'", ".svg": "svg font 'sans-serif,13'"}
FONTS = {".png": "small = ',8'; large = ',14'", ".svg": "small = ',11'; large = ',18'"}


def quoted(text):
    return "'" + text.replace("'", "''").replace("\n", " ") + "'"


def marks(first, last, most):
    """The marks of an axis, at most `most` and at whole numbers: 1, 2 or 5 times a power of ten apart."""
    apart = next(size * 10 ** power for power in range(20) for size in (1, 2, 5)
                 if (last - first) / (size * 10 ** power) <= most)
    return ", ".join(f"'{at:,}' {at}" for at in range(-(-first // apart) * apart, last + 1, apart))


def fill(verdict):
    return f"fillcolor rgb '#{COLOURS[verdict]}' fillstyle solid noborder"


def wide(text):
    """How many pixels wide a text of the legend is, with its box."""
    return 20 + 7.5 * len(text)


def short(number):
    """A power of two as a mark on an axis with little room."""
    for size, letter in ((1 << 30, "Gi"), (1 << 20, "Mi"), (1 << 10, "Ki")):
        if number >= size:
            return f"{number // size}{letter}"
    return str(number)


class Picture:
    """The script for gnuplot. Places are in pixels from the top left."""

    def __init__(self, panels, cuts):
        self.panels, self.cuts, self.grids = panels, cuts, grids(panels)
        self.wide, self.deep = LEFT + WIDTH + RIGHT, len(self.grids[0].rows) * self.grids[0].high
        self.each = TOP + self.deep + GAP + HISTOGRAM + BOTTOM
        self.high = self.each * len(panels)
        latest = max((max(panel.latencies, default=0) for panel in panels), default=0)
        self.bins = max(latest.bit_length() + 1, 8)
        self.lines = ["set multiplot", "set encoding utf8", "unset key", "set tics nomirror out scale 0.6"]

    def x(self, dots):
        return f"{dots / self.wide:.8f}"

    def y(self, dots):
        return f"{1 - dots / self.high:.8f}"

    def frame(self, top, high):
        """Sets where the next plot is."""
        self.lines += ["unset label", "unset object",
                       f"set lmargin at screen {self.x(LEFT)}", f"set rmargin at screen {self.x(LEFT + WIDTH)}",
                       f"set tmargin at screen {self.y(top)}", f"set bmargin at screen {self.y(top + high)}"]

    def text(self, left, top, text, more=""):
        self.lines.append(f"set label {quoted(text)} noenhanced at screen {self.x(left)}, {self.y(top)} {more}")

    def box(self, left, top, style):
        self.lines.append(f"set object rectangle from screen {self.x(left)}, {self.y(top + 7)} "
                          f"to screen {self.x(left + 14)}, {self.y(top - 7)} {style}")

    def legend(self, panel, cut, top):
        """The title; each verdict's colour, number and share; what white means, and which faults are left out."""
        self.text(LEFT, top + 20, panel.title, "font large")
        told = [f"{verdict} {panel.shown[verdict]:,} ({panel.percent(verdict)})" for verdict in VERDICTS]
        left, apart = LEFT, (WIDTH - sum(map(wide, told))) / (len(told) - 1)
        for verdict, text in zip(VERDICTS, told):
            self.box(left, top + 50, fill(verdict))
            self.text(left + 20, top + 50, text, "" if apart >= 8 else "font small")
            left += wide(text) + apart
        self.box(LEFT, top + 74, f"fillcolor rgb '#{NOTHING}' fillstyle solid border rgb '#777777'")
        self.text(LEFT + 20, top + 74, "no fault of the list")
        self.text(LEFT + WIDTH // 4, top + 74, "; ".join(self.notes(panel, cut)), "font small")

    def described(self):
        """The words and numbers in the picture, with a line for each panel."""
        return "\n".join(
            f"{panel.title}: " + ", ".join(f"{verdict} {panel.shown[verdict]:,} ({panel.percent(verdict)})" for verdict in VERDICTS)
            + f"; {'; '.join(self.notes(panel, cut))}; {counted(grid.width)} a column, rows "
            + " ".join("unused" if site == FOLDED else SITES[site] for site in grid.rows) + f". {told(panel.latencies)}"
            for panel, cut, grid in zip(self.panels, self.cuts, self.grids))

    def notes(self, panel, cut):
        """What a reader of the numbers must know."""
        total = total_of(panel)
        if panel.away:
            yield f"of {counted(total - panel.away, 'fault')}; {panel.away:,} more in unused registers"
        else:
            yield f"of {counted(total, 'fault')}"
        if cut:
            yield cut

    def cells(self, grid, file, twice, top):
        """A row for each site, a column for each step or group of steps."""
        across = grid.width / twice
        rows = len(grid.rows)
        tics = ", ".join(f"'{'unused' if site == FOLDED else SITES[site]}' {rows - at - 0.5}"
                         for at, site in enumerate(grid.rows))
        last = grid.first + grid.columns * grid.width
        self.rings(grid)
        self.lines += [
            f"set xrange [{grid.first}:{last}]", f"set yrange [0:{rows}]", f"set ytics ({tics}) font small",
            f"set xtics ({marks(grid.first, last, 10)}) font small",
            f"set xlabel 'step before which the fault strikes (one column: {counted(grid.width)})' offset 0,0.4",
            f"plot {quoted(os.path.basename(file))} binary array=({grid.columns * twice},{rows * grid.high}) "
            "format='%uchar%uchar%uchar' "
            f"dx={across} dy={1 / grid.high:.10f} origin=({grid.first + across / 2},{0.5 / grid.high:.10f}) "
            "using 1:2:3 with rgbimage"]

    def rings(self, grid):
        """A ring around each cell with a corrupt fault, if few cells have one: a cell may be one pixel wide."""
        cells = [place for place, counts in grid.cells.items() if counts[ORDER.index("corrupt")]]
        for column, at in cells if len(cells) <= MOST_RINGS else ():
            self.lines.append(f"set object circle center first {grid.first + (column + 0.5) * grid.width}, "
                              f"{len(grid.rows) - at - 0.5} size graph {0.5 * grid.high / WIDTH:.5f} front noclip "
                              f"fillstyle empty border rgb '#{COLOURS['corrupt']}' linewidth 2")

    def histogram(self, number, panel, top):
        """How many steps passed from a strike to its detection, in bins that double."""
        self.frame(top, HISTOGRAM)
        self.text(LEFT, top - 14, told(panel.latencies))
        self.text(12, top + HISTOGRAM // 2, "faults", "center rotate by 90")
        bins = collections.Counter()
        for steps, count in panel.latencies.items():
            bins[steps.bit_length()] += count
        # With many bins, there is room only for the first number of each.
        few = self.bins <= 11
        names = ["0", "1"] + [f"{1 << at}–{(2 << at) - 1}" if few else short(1 << at) for at in range(1, self.bins)]
        tics = ", ".join(f"'{name}' {at}" for at, name in enumerate(names[:self.bins]))
        most = self.most_in_a_bin()
        way = "offset 0,0.6" if few else "left rotate by 90 offset 0,0.4"
        self.lines += [f"$bins{number} << END", *(f"{at} {bins[at]} {quoted_count(bins[at])}" for at in range(self.bins)),
                       "END", f"set xrange [-0.6:{self.bins - 0.4}]", f"set yrange [0:{most * (1.15 if few else 1.5)}]",
                       f"set xtics ({tics}) font small", f"set ytics ({marks(0, most, 6)}) font small", "set boxwidth 0.8",
                       "set xlabel 'steps from the strike to its detection"
                       f"{'' if few else ' (each bar: from this number up to the next)'}' offset 0,0.4",
                       f"plot $bins{number} using 1:2 with boxes {fill('detected')}, "
                       f"'' using 1:2:3 with labels {way} font small"]

    def most_in_a_bin(self):
        """The most faults in one bin of any panel: the histograms have the same scale."""
        most = 1
        for panel in self.panels:
            bins = collections.Counter()
            for steps, count in panel.latencies.items():
                bins[steps.bit_length()] += count
            most = max([most, *bins.values()])
        return most

    def draw(self, folder):
        colours = [bytes.fromhex(COLOURS[verdict]) for verdict in ORDER]
        for at, (panel, grid, cut) in enumerate(zip(self.panels, self.grids, self.cuts)):
            file, top = os.path.join(folder, f"cells{at}"), at * self.each
            raster, twice = grid.raster(colours, bytes.fromhex(NOTHING))
            put(file, raster)
            self.frame(top + TOP, self.deep)
            self.legend(panel, cut, top)
            self.cells(grid, file, twice, top)
            self.histogram(at, panel, top + TOP + self.deep + GAP)
        self.lines.append("unset multiplot")


def quoted_count(count):
    """The label of a bar, empty if it has no fault."""
    return f'"{count:,}"' if count else '""'


def with_text(png, text):
    """A PNG with its description as text, for programs that read pictures aloud or compare them: after the header, a chunk iTXt."""
    chunk = b"iTXtDescription" + bytes(5) + text.encode()
    chunk = struct.pack(">I", len(chunk) - 4) + chunk + struct.pack(">I", zlib.crc32(chunk))
    return png[:33] + chunk + png[33:]


def run(lines, kind, size, path, folder, text=""):
    """Draws one file with gnuplot. A PNG gets the text as its description: its letters are pixels."""
    made = os.path.join(folder, "picture")
    script = "\n".join([f"set terminal {TERMINALS[kind]} {size} background rgb 'white'", FONTS[kind],
                        f"set output {quoted(made)}", *lines, "unset output"])
    try:
        done = subprocess.run(["gnuplot"], input=script, capture_output=True, text=True, cwd=folder)
    except OSError as error:
        told = "not found; install it (on Debian: apt install gnuplot-nox)"
        raise Refused(f"gnuplot: {told if isinstance(error, FileNotFoundError) else reason(error)}") from error
    if done.returncode == -signal.SIGXFSZ:
        raise OSError(errno.EFBIG, os.strerror(errno.EFBIG), made)
    if done.returncode != 0 or done.stderr.strip():
        raise Refused(f"gnuplot: {(done.stderr.strip() or f'status {done.returncode}').splitlines()[-1]}")
    with open(made, "rb") as drawn:
        data = drawn.read()
    # Browsers would blur the cells.
    put(path, with_text(data, text) if kind == ".png" else
        data.replace(b"<image ", b"<image style='image-rendering:pixelated' "))
