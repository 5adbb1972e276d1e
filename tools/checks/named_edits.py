"""The must-fail edits that a crate's README names are those that it has, and a promise of docs/proved/ names edits of its call.
Each edit can be applied: the texts that it replaces stand once in its file.

A README names its edits in backticks, in the paragraph or the point that speaks of refused edits. An edit that a row names
changes code that the row's call runs, or what makes the value that the call is a method of: the function that it edits is
one of these, or is called from there by name.
"""

import re
from functools import cache

from . import register, sources

PART = re.compile(r"^(?:- )?(?:Refused edits|Edits that must fail)\b.*?(?=\n\n|\n- (?!Of )|\Z)", re.M | re.S)
NAME = re.compile(r"`([a-z0-9]+(?:_[a-z0-9]+)+)`")


def readme_faults(crate):
    """Edits that the README names and that aren't there, and edits that it doesn't name."""
    there, file = set(sources.edits(crate)), sources.CRATES / crate / "README.md"
    named = {name for part in PART.findall(file.read_text()) for name in NAME.findall(part)}
    for name in sorted(named - there):
        yield file, f"no such edit: {name}"
    for name in sorted(there - named):
        yield file, f"it doesn't name the edit {name}"


def text_faults(crate):
    """Texts that an edit replaces and that don't stand once in its file."""
    for edit, file in sources.edits(crate).items():
        words = dict.fromkeys(("file", "old"), "")
        for line in file.read_text().splitlines():
            key, _, words_after = line.partition(": ")
            if key in words:
                words[key] = words_after
            if key == "old" and (sources.CRATES / crate / words["file"]).read_text().count(words_after) != 1:
                yield file, f"this doesn't stand once in {words['file']}: {words_after}"


@cache
def edited(crate, edit):
    """The names of the functions that an edit changes: of each text that it replaces the function that holds it."""
    lines = sources.edits(crate)[edit].read_text().splitlines()
    file = sources.CRATES / crate / next(line.removeprefix("file: ") for line in lines if line.startswith("file: "))
    olds = [line.removeprefix("old: ") for line in lines if line.startswith("old: ")]
    inside = [f for f in sources.functions(crate) if f.file == file]
    return {f.key for old in olds for f in inside if any(old in line for line in f.lines)}


@cache
def by_name():
    """All functions of the crates, by their names."""
    found = {}
    for crate in sources.crate_names():
        for function in sources.functions(crate):
            found.setdefault(function.name, []).append(function)
    return found


CALL = re.compile(r"(\.|\b[A-Za-z]\w*(?:::<[^>]*>)?::|)\b([a-z_]\w*)(?:::<[^>]*>)?\(")


def is_meant(function, before, crates):
    """Whether a name, with what stands before it, may mean this function where these crates are seen, or a trait's."""
    if function.crate not in crates and not function.trait:
        return False
    if before == ".":
        return bool(function.owner)
    kind = before.split("::")[0]
    return function.owner in (kind, "" if kind[:1].islower() else kind) or kind == "Self" and bool(function.owner)


@cache
def called(key):
    """The keys of the functions that one may call, by name: methods after a dot, those of a type after the type."""
    found, crates = set(), {key[0], *sources.below(key[0])}
    for function in (f for f in by_name()[key[2]] if f.key == key):
        for before, name in CALL.findall("\n".join(function.lines[1:])):
            found |= {f.key for f in by_name().get(name, ()) if is_meant(f, before, crates)}
    return found


def runs(starts):
    """The keys of all functions that are called from these, themselves included."""
    seen, left = set(), list(starts)
    while left:
        key = left.pop()
        if key not in seen:
            seen.add(key)
            left += called(key)
    return seen


def starts(call):
    """The functions of a call, and those of its crate that make the value that it is a method of."""
    for function in register.found(call):
        yield function
        for maker in sources.functions(function.crate):
            made = re.search(r"\)\s*->\s*(.*?)(?=\n? +(?:requires|ensures)|\{|$)", "\n".join(maker.lines), re.S)
            if function.owner and made and re.search(rf"\b(?:{function.owner}|Self)\b", made.group(1)):
                if "Self" not in made.group(1) or maker.owner == function.owner:
                    yield maker


def row_faults(calls, names):
    """Edits of a row that change nothing that its calls run."""
    reached = runs({function.key for call in calls for function in starts(call)})
    for name in names:
        crate, _, edit = name.rpartition("::")
        for each in {crate} if crate else {call.split("::")[0] for call in calls}:
            changed = edited(each, edit) if edit in sources.edits(each) else set()
            if changed and not changed & reached:
                where = ", ".join(sorted("::".join(filter(None, key[1:])) for key in changed))
                yield register.REGISTER, f"the edit {edit} changes {where}, which {', '.join(calls)} doesn't call"


def faults():
    for crate in sources.crate_names():
        yield from readme_faults(crate)
        yield from text_faults(crate)
    for _, calls, _, _, _, edits in register.rows():
        yield from row_faults(register.NAMES.findall(calls), register.NAMES.findall(edits))
