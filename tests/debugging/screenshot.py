#!/usr/bin/env python3
"""Draws the debugger's screen at the end of a run as an SVG: python3 screenshot.py DEBUGGER WORDS.. >FILE."""
import html
import itertools
import sys

from terminal import shown

COLOURS = {31: "#e06c75", 32: "#98c379", 33: "#e5c07b", 34: "#61afef", 94: "#61afef"}
INK, PAPER, WIDE, HIGH, SIZE = "#dcdfe4", "#1e2127", 8.4, 18, (100, 30)


def drawn(column, row, text, style):
    """A text at a place."""
    x, y, width, ink = column * WIDE + 10, row * HIGH + 10, len(text) * WIDE, COLOURS.get(style.ink, INK)
    box = f'<rect x="{x:.1f}" y="{y}" width="{width:.1f}" height="{HIGH}" fill="{ink}"/>' if style.reverse else ""
    if not text.strip():
        return box
    more = (' font-weight="bold"' if style.bold else "") + (' opacity="0.6"' if style.dim else "")
    more += ' text-decoration="underline"' if style.underline else ""
    shown_text = html.escape(text).replace(" ", "&#160;")
    return (f'{box}<text x="{x:.1f}" y="{y + 14}" textLength="{width:.1f}" fill="{PAPER if style.reverse else ink}"{more}>'
            f'{shown_text}</text>')


def main(words):
    wide, high = SIZE
    parts = []
    for row, cells in enumerate(shown(words, wide, high).cells):
        column = 0
        for style, run in itertools.groupby(cells, key=lambda cell: cell[1]):
            text = "".join(character for character, _ in run)
            parts.append(drawn(column, row, text, style))
            column += len(text)
    print(f'<svg xmlns="http://www.w3.org/2000/svg" width="{wide * WIDE + 20:.0f}" height="{high * HIGH + 20}" '
          f'font-family="monospace" font-size="14"><rect width="100%" height="100%" rx="6" fill="{PAPER}"/>')
    print("\n".join(part for part in parts if part))
    print("</svg>")


if __name__ == "__main__":
    main(sys.argv[1:])
