"""Each promise of docs/proved/ whose call is a law names the premises of the law.

A law's statement is the definition of its name, as `FreshNamesExist` of the law `fresh_names_exist`. The facts that stand before
its last arrow, by their names, as `IsHierarchy`, stand in its row.
"""

import re

from . import register, sources

FACT = re.compile(r"\b((?:Is|Are|Has|Fits)[A-Z]?\w*)\b")
STATEMENT = re.compile(r"^([A-Z]\w*)(?: \w+)* =(?:[ \n]\s*)((?:.*\n?)(?:^ .*\n?)*)", re.M)


def statements():
    """What each definition with a capital says, by its name and crate."""
    found = {}
    for file in sources.CRATES.glob("*/specs/**/*.antt"):
        for name, said in STATEMENT.findall(file.read_text()):
            found[file.relative_to(sources.CRATES).parts[0], name] = " ".join(said.split())
    return found


def arrows(said):
    """The parts of a statement between the arrows that stand in no brackets."""
    parts, depth, start = [], 0, 0
    for place, sign in enumerate(said):
        depth += (sign in "([{") - (sign in ")]}")
        if sign == "→" and depth == 0:
            parts.append(said[start:place])
            start = place + 1
    return parts


def premises(said):
    """The facts that a statement asks for, by their names."""
    return {name for part in arrows(said) if not re.search(r"↔", part) for name in FACT.findall(part)}


def faults():
    known = statements()
    for cells in register.rows():
        row = " ".join(cells)
        for crate, name in re.findall(r"`(\w+)::(\w+)`", cells[1]):
            said = known.get((crate, "".join(word.capitalize() for word in name.split("_"))))
            for premise in sorted(premises(said or "") - set(register.NAMES.findall(row))):
                yield register.REGISTER, f"the row of {crate}::{name} doesn't name its premise {premise}"
