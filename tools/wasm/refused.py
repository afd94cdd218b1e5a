"""Refusals: where (function, offset in the file), what, and what to do."""


def plain(name):
    """A name from a module, as part of one line: printable ASCII, and not long."""
    text = "".join(c if "!" <= c <= "~" else "?" for c in name)
    return text if len(text) <= 80 else text[:77] + "..."


class Refused(Exception):
    def __init__(self, what, fix="", func=None, offset=None):
        self.what, self.fix, self.func, self.offset = what, fix, func, offset
        super().__init__(what)

    def line(self, path):
        where = path
        if self.func is not None:
            where += f": function {plain(self.func)}"
        if self.offset is not None:
            where += f": offset 0x{self.offset:x}"
        return f"{where}: {self.what}" + (f"; {self.fix}" if self.fix else "")
