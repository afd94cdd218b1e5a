"""An assembly text as the debugger shows it: instructions with their places and lines, blocks, cells, labels."""
import re

NOT_CODE = {"cell", "node", "type", "reg", "pend", "block", "entry"}
LABEL = re.compile(r"#\s*([A-Za-z_]\w*):")
PLACE = re.compile(r"(?:b|block\s+)?(\d+)(?:\s*[:+ ]\s*(\d+))?")
WORDS_OF_TRANSFER = {"jmp_B": 2, "bz_B": 3}


class Instruction:
    """An instruction: its text, its code address, its place in its block, and its lines."""

    def __init__(self, text, address, block, index, line):
        self.text, self.address, self.block, self.index, self.line = text, address, block, index, line
        self.words = text.split()
        self.source_line = None

    def place(self):
        """Block and index."""
        return f"{self.block}:{self.index}"

    def key(self):
        """Block and index, as numbers."""
        return self.block, self.index

    def short(self):
        """The text, without the substitution if it is a blue jump."""
        return " ".join(self.words[:WORDS_OF_TRANSFER.get(self.words[0])])

    def shown_line(self):
        """The line of the source if known, otherwise of the text."""
        return self.source_line or self.line


def without_initial(lines):
    """The lines of an assembly text without the initial words of its cells, which `talft-set` may have changed."""
    return [line.rsplit(" ", 1)[0] if line.startswith("cell ") else line for line in lines]


class Listing:
    """A text as `dis` writes it, or the user's own with the same words.

    A comment `# NAME:` labels the next block."""

    def __init__(self, lines):
        self.lines, self.code, self.blocks, self.cells, self.labels = lines, [], [], [], {}
        label = None
        for number, line in enumerate(lines, 1):
            words = line.split()
            if not words:
                continue
            if words[0].startswith("#"):
                named = LABEL.match(line.strip())
                label = named[1] if named else label
                continue
            if words[0] == "cell":
                self.cells.append(words[1])
            elif words[0] == "block":
                if label:
                    self.labels[label] = len(self.blocks)
                self.blocks.append(len(self.code))
            elif words[0] not in NOT_CODE:
                self.add(words, number)
            label = None

    def add(self, words, number):
        """Adds an instruction."""
        block = len(self.blocks) - 1
        index = len(self.code) - self.blocks[block]
        self.code.append(Instruction(" ".join(words), len(self.code) + 1, block, index, number))

    def said(self):
        """The lines that are neither empty nor comments, with single spaces and without initial words."""
        return without_initial(" ".join(line.split()) for line in self.lines if line.split() and line.split()[0][0] != "#")

    def at(self, address):
        """The instruction at a code address, or None."""
        return self.code[address - 1] if address is not None and 1 <= address <= len(self.code) else None

    def at_place(self, block, index):
        """The instruction at an index of a block, or None."""
        if not 0 <= block < len(self.blocks) or index < 0:
            return None
        start, after = self.blocks[block], (self.blocks + [len(self.code)])[block + 1]
        return self.code[start + index] if start + index < after else None

    def why_not(self, text):
        """Why `find` finds nothing."""
        if text.startswith("*"):
            return f"no instruction has this address: addresses are 1 to {len(self.code)}"
        if match := PLACE.fullmatch(text):
            block, most = int(match[1]), len(self.blocks) - 1
            if block > most:
                return f"unknown block {block}: the blocks are 0 to {most}"
            count = (self.blocks + [len(self.code)])[block + 1] - self.blocks[block]
            return f"unknown index {match[2]}: block {block} has the indices 0 to {count - 1}"
        return "unknown place: expected BLOCK:INDEX, bBLOCK, *ADDRESS, a label or a line"

    def label_of(self, block):
        """The block's label, or None."""
        return next((name for name, labelled in self.labels.items() if labelled == block), None)

    def first_of_line(self, line, source=False):
        """The first instruction of this line or of the next that has one."""
        field = "source_line" if source else "line"
        there = [(getattr(i, field), i.address) for i in self.code if (getattr(i, field) or 0) >= max(1, line)]
        return self.at(min(there)[1]) if there else None

    def parts_of_line(self, line, source=False):
        """The first instruction of each part of this line, or of the next line with code. A `while` has two parts."""
        first = self.first_of_line(line, source)
        if not first or not source:
            return [first] if first else []
        return [i for i in self.code if i.source_line == first.source_line
                and (i.index == 0 or self.at(i.address - 1).source_line != i.source_line)]

    def find(self, text):
        """The instruction that a user names: B I, B:I, bB, *ADDRESS, LABEL or LABEL+I; or None."""
        if match := re.fullmatch(r"\*\s*(0[xX][0-9a-fA-F]+|\d+)", text):
            return self.at(int(match[1], 0))
        if match := re.fullmatch(r"([A-Za-z_]\w*)(?:\+(\d+))?", text):
            if match[1] in self.labels:
                return self.at_place(self.labels[match[1]], int(match[2] or 0))
            block = re.fullmatch(r"b(?:lock)?(\d+)", match[1])
            return self.at_place(int(block[1]), int(match[2] or 0)) if block else None
        match = PLACE.fullmatch(text)
        return self.at_place(int(match[1]), int(match[2] or 0)) if match else None
