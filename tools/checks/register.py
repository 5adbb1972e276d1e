"""Each promise of docs/proved/ names what is there.

A promise is an item of a list, with items below it: the calls, the clauses, the definitions, the premises and the edits, as
far as there are any. A call is written as others call it: `crate::function` or `crate::Type::function`. Where there are
several calls, the clauses are in as many parts, separated by `;`, or each of them stands on every call. No clauses mean that
the call has one without a label.
"""

import re

from . import sources

REGISTER = sources.TOP / "docs" / "PROVED.md"
LISTS = sources.TOP / "docs" / "proved"
LABELS = ("calls", "clauses", "definitions", "premises", "edits")
NAMES = re.compile(r"`([^`]+)`")


def rows():
    """The cells of each promise that names a call: the promise, and what stands below it by its labels, or nothing."""
    for file in sorted(LISTS.glob("*.md")):
        for item in re.split(r"^- ", re.sub(r"^#.*", "", file.read_text(), flags=re.M), flags=re.M)[1:]:
            promise, *below = re.split(r"^  - ", item, flags=re.M)
            said = dict(part.split(": ", 1) for part in below)
            cells = [promise, *(said.get(label, "") for label in LABELS)]
            if "`olap_" in cells[1]:
                yield [" ".join(cell.split()) for cell in cells]


def found(call):
    """The functions that a call of the register names: none if it isn't public."""
    crate, *path = call.split("::")
    if crate not in sources.crate_names() or not path or path[0] not in sources.exports(crate):
        return []
    owner, name = (path[0], path[1]) if len(path) == 2 else ("", path[0])
    return [f for f in sources.functions(crate) if (f.owner, f.name) == (owner, name) and f.public]


def clause_faults(calls, cell):
    """Labels that a call doesn't have."""
    parts = cell.split(";") if cell.count(";") + 1 == len(calls) else [cell] * len(calls)
    for call, part in zip(calls, parts):
        labels = NAMES.findall(part) or [""]
        on_call = {label for function in found(call) for label in function.labels}
        for label in labels:
            if label not in on_call:
                yield f"{call} has no clause {'labelled ' + label if label else 'without a label'}"


def edit_faults(calls, cell):
    """Edits that stand neither in the calls' crates nor in the crate that is written before them."""
    for name in NAMES.findall(cell):
        crate, _, edit = name.rpartition("::")
        crates = {crate} if crate else {call.split("::")[0] for call in calls}
        if not any(edit in sources.edits(each) for each in crates):
            yield f"{', '.join(sorted(crates))}: no such edit: {edit}"


def faults():
    if not list(rows()):
        yield REGISTER, "no promise was read"
    for _, calls_cell, clauses, meanings, _, edits in rows():
        calls = NAMES.findall(calls_cell)
        missing = [call for call in calls if not found(call)]
        for call in missing:
            yield REGISTER, f"no such public call: {call}"
        if missing:
            continue
        for what in clause_faults(calls, clauses):
            yield REGISTER, what
        for name in NAMES.findall(meanings):
            if name not in sources.definitions():
                yield REGISTER, f"no such definition: {name}"
        for what in edit_faults(calls, edits):
            yield REGISTER, what
