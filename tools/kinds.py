"""Guesses what a file is from how it begins, as the program does."""
import os
import re

# How many bytes of a file are examined.
LOOKED_AT = 65_536
STRIKE = r"\d{1,20}:(?:r\d\d?|d|pc[gb]|q[av]\d):\d{1,20}"
MAGICS = ((b"TALFT", "an object"), (b"\0asm", "a WebAssembly module"), (b"\xff\xfe", "UTF-16 text"),
          (b"\xfe\xff", "UTF-16 text"), (b"\x1f\x8b", "a gzip file"), (b"PK\x03\x04", "a zip archive"),
          (b"\x7fELF", "an ELF file (code for a processor)"), (b"SQLite format 3\0", "an SQLite database"))
# What a text is, by its first line that is neither blank nor a comment.
LINES = ((STRIKE, "a fault list"),
         (STRIKE + r" (masked|idle|corrupt|detected \d+)|faults \d+ masked .*", "the output of a campaign"),
         (r"module \S+", "a link map"), (r'\{"of": \{.*', "the file of `talft-faults --about`"),
         (r"\[[a-z]+\] [0-9a-f]{64}", "a text about an object (NAME.about)"),
         (r"(step|go|back) \d+|zap \S+ \S+|break \d+ \d+|where", "a debugger script"),
         (r"cell \S+ (ref:)*(int|code:\d+) \d+|node \d+ .*|(type|block|entry) \d.*", "an assembly text"),
         (r"(cell|var)\s+\w+\s*[=;\[].*|(while|if)\s*\(.*|\w+\s*[=\[].*", "a source"),
         (r"accepted|usage|(source|object|list|asm|link) \d+ \d.*|check (entry|cell|block).*", "an answer of `talft`"),
         (r"[^\s:]+ \d{1,20}", "the output of a run"), (r"#include\b.*", "a C program"))
ENDS = {".src": "a source", ".asm": "an assembly text", ".map": "a link map", ".c": "a C program", ".h": "a C program",
        ".wasm": "a WebAssembly module", ".obj": "an object", ".faults": "a fault list"}
# What makes an object of a file.
MAKES = {"a source": "`talft compile`", "an assembly text": "`talft asm`", "a link map": "`talft link`",
         "a C program": "`talft-cc`", "a WebAssembly module": "`talft-cc`"}
# The options that take what a user may give without one.
OPTIONS = {"a fault": "--fault", "a site": "--sites", "a folder": "--dir", "a fault list": "--faults", "an object": "--object",
           "a source": "--source", "an assembly text": "--text", "the output of a run": "--from"}


def kind_of_text(text):
    """What a text is; None if it is of no known kind."""
    lines = [line.strip() for line in text.splitlines()]
    first = next((line for line in lines if line and (line[0] != "#" or line.startswith("#include"))), "")
    return next((kind for pattern, kind in LINES if re.fullmatch(pattern, first)), None)


def kind_of_data(path, data):
    """What a file with these first bytes is; None if it is of no known kind."""
    for magic, kind in MAGICS:
        if data.startswith(magic):
            return kind
    if re.search(rb"[\0-\x08\x0b\x0e-\x19\x1c-\x1f\x7f]", data):
        return "a binary file"
    return kind_of_text(data.decode("latin-1")) or ENDS.get(os.path.splitext(path)[1])


def kind_of_path(path):
    """What a regular file is; None if it is empty, cannot be read, or is of no known kind."""
    try:
        if not os.path.isfile(path):
            return None
        with open(path, "rb") as file:
            data = file.read(LOOKED_AT)
    except (OSError, ValueError):
        return None
    return kind_of_data(path, data) if data else None


def kind_of_operand(word):
    """What an operand is: a fault, a site, a folder, or a file."""
    if os.path.isdir(word):
        return "a folder"
    if os.path.exists(word):
        return kind_of_path(word)
    if re.fullmatch(STRIKE, word):
        return "a fault"
    if re.fullmatch(r"r\d\d?|d|pc[gb]|q[av]\d", word):
        return "a site"
    return ENDS.get(os.path.splitext(word)[1])


def instead_of_object(path, data):
    """What a file is that should be an object, and what to do."""
    kind = kind_of_data(path, data)
    if kind in MAKES:
        return f"{kind}; {MAKES[kind]} turns it into an object"
    if kind and kind != "an object":
        return f"{kind}; expected an object"
    return "not an object; `talft compile`, `talft asm` and `talft-cc` make objects"
