"""Each path in backticks of a document is there."""

import re

from . import sources

PATH = re.compile(r"`([A-Za-z0-9_.\-]+(?:/[A-Za-z0-9_.+\-]+)+/?)`")


def documents():
    """The documents at the top, in docs/, examples/, recipes/, rows/ and tools/, and each crate's."""
    places = ("*.md", "docs/**/*.md", "examples/**/*.md", "recipes/**/*.md", "rows/*.md", "tools/*.md", "crates/*/README.md")
    return [document for place in places for document in sources.TOP.glob(place)]


def is_there(document, path):
    """From the top, the document's folder, crates/ or docs/, with or without an ending."""
    roots = (sources.TOP, document.parent, sources.CRATES, sources.TOP / "docs")
    return any((root / (path + end)).exists() for root in roots for end in ("", ".antt", ".rt"))


def faults():
    for document in documents():
        prose = re.sub(r"```.*?```", "", document.read_text(), flags=re.S)
        for path in PATH.findall(prose):
            # Words in capitals stand for any name: `proofs/MODULE/FUNCTION/Answers.antt`.
            if not re.search(r"(^|/)[A-Z_]+(/|$)", path) and not is_there(document, path):
                yield document, f"no such path: {path}"
