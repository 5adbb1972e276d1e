"""Each definition or clause that a document quotes stands so in a crate, spaces, line breaks and remarks aside.

A quote is a block that begins with three backticks and `antt`. Its parts, which a blank line or a remark ends, are looked up
one by one; the line that gives a function's type may be left out. And each name in the last column of the tables of
docs/DEFINITIONS.md and docs/DEFINITIONS-TEXTS.md is a definition, or a file of some crate's specs/. A quoted clause is an indented line that begins with
`ensures`; what stands in it before ` ..` is looked up in the sources.
"""

import re

from . import sources
from .cited import documents


def plain(text):
    """The text without remarks, with one space for all that separates."""
    return " ".join(re.sub(r"(^|\s)--(\s.*|$)", " ", text, flags=re.M).split())


def parts(block):
    """The parts of a block, as plain text."""
    for part in re.split(r"\n\s*\n|\n(?=\s*--)", "\n" + block):
        for equation in re.split(r"\n(?=\S)", part):
            if plain(equation):
                yield plain(equation)


def unknown_names(text):
    """The names in the last columns of the tables that nothing has."""
    for row in re.findall(r"^\|.*\|([^|]*)\|$", text, re.M):
        for name in re.findall(r"`([^`/]+)`", row):
            is_file = name.endswith(".antt") and list(sources.CRATES.glob(f"*/specs/**/{name}"))
            if not is_file and name not in sources.definitions():
                yield name


def missing_clauses(text):
    """The quoted clauses of a document that no source has."""
    written = [plain(file.read_text()) for file in sources.CRATES.glob("*/src/**/*.rt")]
    for clause in re.findall(r"^ {8,}(ensures .*)$", text, re.M):
        start = plain(clause).split(" ..")[0]
        if not any(start in source for source in written):
            yield start


def faults():
    for document in sorted(sources.TOP.glob("docs/DEFINITIONS*.md")):
        for name in unknown_names(document.read_text()):
            yield document, f"no such definition: {name}"
    defined = [plain(file.read_text()) for file in sources.CRATES.glob("*/specs/**/*.antt")]
    for document in documents():
        for clause in missing_clauses(document.read_text()):
            yield document, f"no source has this clause: {clause}"
        for block in re.findall(r"^```antt\n(.*?)^```", document.read_text(), re.M | re.S):
            for part in parts(block):
                if not any(part in text for text in defined):
                    yield document, f"no specs/ has this definition: {part[:70]}"
