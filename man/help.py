"""Turns a tool's --help into the body of its manual page: `help.py NAME <HELP`."""
import re
import sys

# Documents that are also manual pages.
PAGES = {"docs/TOOLS.md": "talft-tools(7)", "docs/C.md": "talft-c(7)", "docs/DEBUGGING.md": "talft-debugging(7)",
         "docs/SOURCE_LANGUAGE.md": "talft-source(5)", "docs/ASSEMBLY.md": "talft-assembly(5)"}
LISTS = {"positional arguments": "ARGUMENTS", "options": "OPTIONS", "optional arguments": "OPTIONS"}


def plain(text):
    """The text, with everything escaped that man would interpret."""
    for sign, written in (("\\", "\\e"), ("-", "\\-"), ("'", "\\(aq"), ("`", "\\(ga"), ("^", "\\(ha"), ("~", "\\(ti")):
        text = text.replace(sign, written)
    return re.sub(r"^\.", r"\\&.", text)


def prose(text):
    """A paragraph, with code in bold, and each document cited as the page that is made from it."""
    for document, page in PAGES.items():
        text = text.replace(document, f"`{page}`")
    # Other documents are not installed as pages, so sentences that name one are left out.
    text = " ".join(part for part in re.split(r"(?<=[.:]) (?=[A-Z`])", text) if "docs/" not in part)
    parts = text.split("`")
    return "".join(f"\\fB{plain(part)}\\fR" if at % 2 else plain(part) for at, part in enumerate(parts))


def entries(lines):
    """The entries of a list: a term indented by two, and its text next to or below it."""
    found = []
    for line in lines:
        if re.match(r"  \S", line):
            term, _, text = line.strip().partition("  ")
            found.append([term, text.strip()])
        elif line.strip() and found:
            found[-1][1] += " " + line.strip()
    return [(term, text.strip()) for term, text in found]


def listed(lines):
    """A list as lines for man; a term without a text stands alone."""
    return [part for term, text in entries(lines)
            for part in (".TP", f"\\fB{plain(term)}\\fR", *([prose(text)] if text else ["\\&"]))]


def block_of(lines):
    """A paragraph, with the lists in it."""
    out, text, rest = [], [], []
    for line in [*lines, ""]:
        if line.startswith("  "):
            rest.append(line)
            continue
        if rest:
            out += [".PP", prose(" ".join(text)), *listed(rest)]
            text, rest = [], []
        text += [line.strip()] if line.strip() else []
    return out + ([".PP", prose(" ".join(text))] if text else [])


def main(name):
    blocks = [block.splitlines() for block in re.split(r"\n\n+", sys.stdin.read().strip())]
    synopsis = " ".join(line.strip() for line in blocks[0]).removeprefix("usage: ")
    about = " ".join(line.strip() for line in blocks[1])
    short = re.split(r"[.:] |\.$", about, maxsplit=1)[0]
    sections = {"DESCRIPTION": [".PP", prose(about)]}
    for block in blocks[2:]:
        head, is_head = block[0].rstrip(":"), block[0].endswith(":")
        if is_head and head in LISTS:
            sections.setdefault(LISTS[head], []).extend(listed(block[1:]))
        elif is_head and head == "examples":
            sections.setdefault("EXAMPLES", []).extend(listed(block[1:]))
        else:
            sections["DESCRIPTION"] += block_of(block)
    named, short = plain(name), plain(short[0].lower() + short[1:].replace("`", ""))
    print(f".SH NAME\n{named} \\- {short}")
    print(".SH SYNOPSIS\n" + plain(synopsis).replace(named, f"\\fB{named}\\fR", 1))
    for title, lines in sections.items():
        print(f".SH {title}")
        print("\n".join(lines[1:] if lines[0] == ".PP" else lines))


if __name__ == "__main__":
    main(sys.argv[1])
