"""What the full screen shows."""
import curses
import os

from debugging import explaining, views

# The keys that fit into 80 columns come first.
KEYS = (": command  ? help  q quit  n/p step  c/r run  b break  z zap  f flip  e explain  i/I instruction  u undo"
        "  g goto  l/L line")
# What the symbols of the timeline and the marks of pairs mean.
LEGEND = "  ".join(["o here", "! strike", "@ both", *views.MARKS.values()])
# The columns that a green and a blue register need at least, with the space before the next column, and how many the
# green one gets at most if it needs no more.
HALVES, HALF = (18, 14), 27
# How many of the last outputs determine the cells that changed last.
LAST_CHANGED = 200
# The smallest number of columns with room for a short blue word.
WIDE = 75
# The smallest screen that shows anything useful: columns and rows; and the fewest columns of the code, and of the words
# on a narrow screen.
LEAST, LEAST_CODE, LEAST_WORDS = (50, 12), 34, 26


def is_too_small(window):
    height, wide = window.getmaxyx()
    return wide < LEAST[0] or height < LEAST[1]


class Panes:
    """Draws the screen; the window, the session and the choices are those of Screen."""

    def put(self, row, column, text, style=None, width=None):
        """Writes a text at a place, cut or padded to the width."""
        height, wide = self.window.getmaxyx()
        # A character in the last cell of the screen would scroll it.
        room = wide - column - (1 if row == height - 1 else 0)
        width = room if width is None else min(width, room)
        if len(text) > width > 0:
            text = text[:width - 1] + self.cut
        if 0 <= row < height and width > 0:
            try:
                self.window.addnstr(row, column, text.ljust(width), width, self.style[style])
            except curses.error:
                # The window has become smaller: the next key reports its new size.
                pass

    def draw(self):
        """Draws the whole screen."""
        self.window.erase()
        if is_too_small(self.window):
            self.put(0, 0, f"too small: needs {LEAST[0]}x{LEAST[1]}")
            self.window.refresh()
            return
        height, wide = self.window.getmaxyx()
        session = self.session
        shown = [pair for pair in views.pairs(session, self.before) if self.every or not pair.is_unset]
        left, body = self.split(wide, shown), height - 5
        doing = f"   {views.status_line(session)}   {views.doing(session)}".replace("`explain` says", "e says")
        path = session.target.path if len(session.target.path + doing) < wide else os.path.basename(session.target.path)
        self.put(0, 0, f" {path}{doing}", "here")
        self.code(1, body, left - 1)
        for row in range(1, body + 1):
            self.put(row, left - 1, "|", "dim", 1)
        row = self.registers(1, left + 1, body - 8, shown)
        self.rest(row, left + 1, body - row + 1)
        self.time(height - 4, wide)
        if self.message:
            self.put(height - 2, 0, self.message, "changed")
        # As many keys as fit; `?` shows all. The last cell of the screen stays empty.
        self.put(height - 1, 0, (KEYS + "  ")[:wide + 1].rpartition("  ")[0], "dim")
        self.window.refresh()

    def split(self, wide, shown):
        """The column of the right pane. It gets what its words have needed so far, so that it does not jump with each step;
        the code gets the rest, as far as it has such long lines. If both need more, each gets half."""
        self.halves = tuple(max([least, *(len(text) + 1 for text in texts)]) for least, texts in zip(
            self.halves, ([pair.green for pair in shown], [pair.blue for pair in shown])))
        need = 2 + sum(self.halves) if wide >= WIDE else LEAST_WORDS
        code = 17 + max(len(instruction.short()) for instruction in self.session.target.code)
        lines = [len(f"{number}: {line.strip()}") + 1 for number, line in enumerate(self.session.target.source or (), 1)]
        return max(min(code, max(LEAST_CODE, wide // 2)), min(max([code, *lines]), wide - need), LEAST_CODE)

    def code_lines(self, height):
        """(address or None, text, style) of the instructions around the chosen one, and the chosen address."""
        session, current = self.session, self.session.current()
        here = current.address if current else min(max(1, session.state().pcg), len(session.target.code))
        here = self.cursor or here
        rows, source = [], None
        for instruction, is_break, arrow in views.code_rows(session, here - height, here + height):
            if instruction.index == 0:
                rows.append((None, views.block_line(session, instruction.block), "title"))
            if instruction.source_line and instruction.source_line != source:
                source = instruction.source_line
                rows.append((None, f"{source}: {session.target.source[source - 1].strip()}", "dim"))
            style = "here" if instruction.address == here and self.cursor else "title" if arrow != "  " else \
                "break" if is_break else views.colour_of(instruction)
            rows.append((instruction.address, f"{arrow}{'*' if is_break else ' '}{instruction.address:>5} "
                         f"{instruction.place():<7}{instruction.short()}", style))
        return rows, here

    def code(self, top, height, width):
        """Draws the instructions, with the chosen one in the middle."""
        rows, here = self.code_lines(height)
        at = next((i for i, row in enumerate(rows) if row[0] == here), 0)
        first = max(0, min(at - height // 2, len(rows) - height))
        shown = rows[first:first + height]
        number = self.session.target.at(here).source_line if self.session.target.at(here) else None
        if number and first and shown and at > first:
            # The chosen instruction's line stays in sight.
            shown[0] = (None, f"{number}: {self.session.target.source[number - 1].strip()}", "dim")
        for i, (_, text, style) in enumerate(shown):
            self.put(top + i, 0, text, style, width)

    def registers(self, top, column, height, shown):
        """Draws both colours side by side; returns the next row."""
        state = self.session.state()
        cut = max(0, len(shown) - max(3, height - 3))
        more = f"   ({cut} more)" if cut else ""
        wide = self.window.getmaxyx()[1]
        is_wide, room = wide >= WIDE, max(1, wide - column - 2)
        # A green word may have a name of the source after it.
        spare = room + 1 - sum(self.halves)
        # If both need more than there is, what one does not need goes to the other.
        half = self.halves[0] + min(spare // 2, max(0, HALF - self.halves[0])) if spare >= 0 else \
            max(min(HALF, (room + 3) // 2), min(self.halves[0], room + 1 - self.halves[1]))
        half = half if is_wide else room
        self.put(top, column + 2, "green", "green changed")
        self.put(top, column + 2 + (half if is_wide else 7), ("blue" if is_wide else f"blue: {WIDE} columns") + more,
                 "blue changed")
        row = top + 1
        for pair in shown[:len(shown) - cut]:
            styles = ["differs" if pair.mark == "*" else colour + " changed" * changed
                      for changed, colour in zip(pair.changed, ("green", "blue"))]
            self.put(row, column, pair.mark + " ", "differs" if pair.mark == "*" else "dim", 2)
            # A space stays between the columns.
            green, blue = pair.within(half - is_wide, room - half)
            self.put(row, column + 2, green, styles[0], half - is_wide)
            if is_wide:
                self.put(row, column + 2 + half, blue, styles[1])
            row += 1
        style = "differs" if state.pcg != state.pcb else None
        counters = [f"pcg G {state.pcg}", f"pcb B {state.pcb}"]
        self.put(row, column, "* " if style else "  ", style)
        self.put(row, column + 2, counters[0], style or "green", half - 1)
        self.put(row, column + 2 + half, counters[1], style or "blue")
        self.put(row + 1, column, f"  d   G {views.spelled(self.session, state.word('d'))}", "green")
        return row + 3

    def cells_shown(self, most):
        """(name, word) of `most` cells: the displayed and watched ones, those that changed last, and the first.

        The last word stored in a cell is an output, so a screen need not read every cell."""
        session, known = self.session, self.session.target.listing.cells
        watched = [site for _, site in session.watched()]
        wanted = [name for name in self.commands.displayed + watched if name in known][:most]
        words = session.cells(wanted) if wanted else {}
        changed = [line.rsplit(" ", 1) for line in reversed(session.outputs().last(LAST_CHANGED))]
        for name, word in changed + list(session.state().cells.items()):
            words.setdefault(name, word)
        return list(words.items())[:most]

    def rest(self, row, column, height):
        """Draws displayed words, the queue, cells and outputs, as far as there is room."""
        session = self.session
        state, outputs = session.state(), session.outputs()
        total = len(session.target.listing.cells)
        lines = [("display", "title")] if self.commands.displayed else []
        lines += [(line, None) for line in self.commands.display_lines()]
        lines += [("queue" + ("" if state.queue else ": empty"), "title")]
        lines += [(line, "green") for line in (views.queue_lines(session) if state.queue else [])]
        # Outputs get half of the room, and what the cells leave; cells get the rest.
        room = max(2, height - len(lines) - 2)
        few = self.cells_shown(max(1, room - min(len(outputs), max(room // 2, room - total))))
        more = f" ({len(few)} of {total}; all: `:cells`)" if total > len(few) else ""
        lines.append(("cells" + more, "title"))
        lines += [(f"  {name} {word}", None) for name, word in few]
        room = max(1, height - len(lines) - 1)
        lines.append((explaining.counted(len(outputs), "output"), "title"))
        lines += [("  " + line, None) for line in outputs.last(room)]
        for i, (text, style) in enumerate(lines[:max(0, height)]):
            self.put(row + i, column, text, style)

    def time(self, row, wide):
        """Draws the timeline and the strikes."""
        session = self.session
        end = max(self.length, session.position)
        note = f" {end} steps" if self.ends else f" {end} steps and more"
        bar = views.time_line(session, wide - len(note) - 2, end)
        self.put(row, 0, "0 ")
        for i, mark in enumerate(bar):
            self.put(row, 2 + i, mark, {"o": "here", "!": "differs", "@": "differs"}.get(mark, "dim"), 1)
        self.put(row, 2 + len(bar), note)
        strikes = "  ".join(f"! {s.step}:{s.site}:{s.word}" for s in session.strikes)
        detected = session.state().status == "detected"
        self.put(row + 1, 0, f"o {views.status_line(session)}   {strikes}", "differs" if detected else None)
        if not self.message:
            self.put(row + 2, 0, LEGEND, "dim")
