"""What the manual says: of refusals, each by the text that is refused, and of the words of each command."""

from __future__ import annotations

import difflib
import re
from typing import Optional

from .program import TOP

COMMANDS, FORMATS = TOP / "man" / "olap.1", TOP / "man" / "olap.5"
SECTIONS = {
    "schema": ("Kinds of a schema's or a formula's fault",),
    "record": ("Kinds of a record's fault", "Kinds of a fact that can't be added or withdrawn"),
    "instance": ("Violations",),
}  # by what is at fault: a schema or formula, a record, an instance as a whole


def plain(text: str) -> str:
    """A text of the manual without its macros and fonts."""
    lines = [re.sub(r'"', "", re.sub(r"^\.(B|I|BR|BI|IR|RB|IB) ", "", line)) for line in text.splitlines()]
    return re.sub(r"\\f[A-Z]", "", " ".join(lines)).replace("\\-", "-").replace(" ,", ",").replace(" ;", ";").replace(" :", ":")


def entries(title: str) -> list[tuple[str, str]]:
    """The heads of a part of the diagnostics, and what is said below each."""
    part = FORMATS.read_text(encoding="utf-8").partition(f"\n.SS {title}\n")[2]
    part = re.split(r"^\.S[SH] ", part, maxsplit=1, flags=re.M)[0]
    return re.findall(r"^\.TP(?: \d+)?\n(.*)\n((?:(?!\.TP\b).*\n)*)", part, re.M)


def sentence(kind: str, where: str) -> Optional[str]:
    """What the manual says of a kind of fault: where the fault is says in which of its lists to look."""
    for title in SECTIONS[where]:
        for head, body in entries(title):
            if re.search(rf"\b{kind}\b", plain(head)):
                return plain(body)
    return None


def sentence_on(refusal: str) -> Optional[str]:
    """What the manual says of a whole refusal, as `refused word 2 BadNumber`; letters in its head stand for any number or word."""
    found = None
    for head, body in entries("What is refused"):
        words = [word.strip('"') for word in re.sub(r"^\.BI? ", "", re.sub(r"\\f[A-Z]", "", head)).replace('"', " ").split()]
        fits = [re.escape(word) if word not in ("F", "N") else r"[\w]+" for word in words]
        if re.fullmatch(" ".join(fits), refusal):
            is_exact = not {"F", "N"} & set(words)
            if found is None or is_exact:
                found = plain(body)
    return found


def synopses() -> dict[str, str]:
    """The words of each command."""
    part = COMMANDS.read_text(encoding="utf-8").partition("\n.SH SYNOPSIS\n")[2].partition("\n.SH ")[0]
    lines = [plain(line).replace("\\fI", "") for line in part.splitlines() if line.startswith("\\fB")]
    return {line.split(" ")[1]: line for line in lines}


def usage_of(word: str) -> Optional[str]:
    """The line of this command, or of the one that is spelled most alike."""
    known = synopses()
    alike = [word] if word in known else difflib.get_close_matches(word, known, 1)
    return known[alike[0]] if alike else None
