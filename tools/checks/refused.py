"""Each line in the tables of docs/SCHEMA.md is refused, or taken, as it says.

A row of the sections on refusals has a line, and what is said where that line stands after the text that is shown: the schema of
section 1, and the instance and the facts of their sections. A row on years stands after examples/written/years.txt. A row of section
2 has a constraint that examples/location takes.
"""

import re
import subprocess
import tempfile
from pathlib import Path

from . import sources, transcripts

DOCUMENT = sources.TOP / "docs" / "SCHEMA.md"
FIRST = {"schema": "schema 1", "instance": "id,category,name,parents", "facts": "member,value"}
WORDS = {"schema": ("format", "schema"), "instance": ("check", "schema", "instance"), "facts": ("rollup", "schema", "instance", "facts")}
LOCATION = sources.TOP / "examples" / "location" / "schema.txt"
YEARS = sources.TOP / "examples" / "written" / "years.txt"


def texts(document):
    """The texts to which a line is added, by what they are."""
    found = {}
    for block in transcripts.blocks(document):
        for what, first in FIRST.items():
            if block[0] == first:
                found.setdefault(what, "".join(line + "\n" for line in block))
    return found


def rows(document):
    """What each row is about, its line and what is said."""
    for section in document.split("\n## ")[1:]:
        about = re.match(r"\d\. A (?:line|record) of the (\w+) is refused\n", section)
        for line, said in re.findall(r"^\| `([^`]*)` \| `([^`]*)` \|.*\|$", section, re.M) if about else []:
            yield about[1], line, said


def said_of(folder, what, line, start):
    for name, text in start.items():
        (folder / name).write_text(text + (line + "\n" if name == what else ""))
    words = [*WORDS[what], *(["All"] if what == "facts" else [])]
    done = subprocess.run([transcripts.program(), *words], cwd=folder, capture_output=True, timeout=120, check=False)
    return done.stdout.decode(errors="replace").split("\n", 1)[0]


def faults():
    if not transcripts.program().exists():
        return
    document = DOCUMENT.read_text()
    start, found = texts(document), list(rows(document))
    if len(start) != len(FIRST) or {what for what, _, _ in found} != set(FIRST):
        yield DOCUMENT, "its texts or tables can't be read"
        return
    with tempfile.TemporaryDirectory() as name:
        for what, line, wanted in found:
            said = said_of(Path(name), what, line, start)
            if said != f"refused {what} {wanted}":
                yield DOCUMENT, f"of `{line}` the program says: {said}"
        years = document.partition("\n### Years, weeks and sizes\n")[2].partition("\n## ")[0]
        for line, wanted in re.findall(r"^\| `([^`]*)` \| `([^`]*)` \|.*\|$", years, re.M):
            said = said_of(Path(name), "schema", line, {"schema": YEARS.read_text()})
            if said != f"refused schema {wanted}":
                yield DOCUMENT, f"of `{line}` the program says: {said}"
        for line in re.findall(r"^\|[^|]*\| `(constraint [^`]*)` \|$", document, re.M):
            said = said_of(Path(name), "schema", line, {"schema": LOCATION.read_text()})
            if said != "schema 2":
                yield DOCUMENT, f"of `{line}` the program says: {said}"
