"""What explains a refusal: the line or record that it names, the part that is at fault, and the manual's sentence on it."""

from __future__ import annotations

import csv
import io
import re
import sys
from typing import Iterator

from . import form, manual, program
from .program import Fault
from .texts import ESCAPED, STRING

# Kinds whose cause the record alone doesn't show.
WITH_CAUSE = ("UnknownCategory", "UnknownParent", "UnknownMember", "DuplicateId", "BadHeader")
OF_SCHEMA = ("format", "satisfiable", "implies", "summarizable", "frozen", "shapes", "audit", "prove", "prove-short", "needs")
# Of each command, what its words are after its name.
FILES = {
    "rollup": ("schema", "instance", "facts"), "store": ("schema", "instance", "facts"), "answer": ("schema", "instance", "store"),
    "append": ("schema", "instance", "store", "facts"), "retract": ("schema", "instance", "store", "facts"),
    "check": ("schema", "instance"), "breaks": ("schema", "instance"), **dict.fromkeys(OF_SCHEMA, ("schema",)),
    **{name: ("schema", "certificate") for name in ("verify", "verify-short")},
}  # fmt: skip
MOST = 200  # characters of a line or record that are shown
MOST_BELOW = 20  # records of members that are shown


def files_of(words: list[str]) -> list[str]:
    """What the words after the command's name are, as far as they are files; of cubes each with the number of its dimension."""
    if words[:1] not in (["cube"], ["cubeview"]):
        return list(FILES.get(words[0], ())) if words else []
    numbers = range(1, int(words[1]) + 1) if words[1:2] and words[1] in ("1", "2", "3", "4") else ()
    schemas, instances = ([f"{what} {number}" for number in numbers] for what in ("schema", "instance"))
    return ["K", *schemas, *([*instances, "facts"] if words[0] == "cubeview" else [])]


def file_of(words: list[str], what: str) -> str:
    names = files_of(words)
    if what not in names or len(words) <= names.index(what) + 1:
        raise Fault(f"these words name no {what}: {' '.join(words)}", 2)
    return words[names.index(what) + 1]


def content(words: list[str], what: str) -> str:
    file = file_of(words, what)
    try:
        with open(file, "rb") as source:
            return source.read(program.most_bytes(what)).decode(errors="replace")
    except OSError as error:
        raise Fault(f"{file}: {error.strerror}", 4) from None


def records(text: str) -> list[list[str]]:
    csv.field_size_limit(len(text) + 1)
    return [row for row in csv.reader(io.StringIO(text[text.startswith("\ufeff") :], newline="")) if row]


class Facts:
    """The first record of a file of facts, however long it is, and the one of this number; and how many there are up to it."""

    def __init__(self, words: list[str], number: int) -> None:
        self.kept: dict[int, list[str]] = {}
        self.count = 0
        csv.field_size_limit(sys.maxsize)
        file = file_of(words, "facts")
        try:
            with open(file, encoding="utf-8-sig", errors="replace", newline="") as source:
                for row in filter(None, csv.reader(source)):
                    if self.count in (0, number - 1):
                        self.kept[self.count] = row
                    self.count += 1
                    if self.count >= number:
                        break
        except OSError as error:
            raise Fault(f"{file}: {error.strerror}", 4) from None

    def __len__(self) -> int:
        return self.count

    def __getitem__(self, place: int) -> list[str]:
        return self.kept[place]


def shown(label: str, text: str) -> str:
    text = text if len(text) <= MOST else text[: MOST - 1] + "…"
    return program.one_line(f"  {label}: {text}")


def told(said: str | None) -> Iterator[str]:
    if said:
        yield f"  manual: {said}"


def changed(what: str, place: str) -> str:
    return f"  {what} has no {place} now: the file changed since the program read it"


def of_line(words: list[str], what: str, number: int, kind: str) -> Iterator[str]:
    lines = content(words, what).split("\n")
    if not 1 <= number <= len(lines):
        yield changed(f"the {what}", f"line {number}")
        return
    line = lines[number - 1]
    yield shown(f"line {number}", line[:-1] if line.endswith("\r") else line)
    if kind == "BadForm":
        yield from of_form(form.why_bad(lines, number))
    yield from told(manual.sentence(kind, "schema"))


def of_form(bad: form.Bad | None) -> Iterator[str]:
    if bad:
        yield shown(f"column {bad.column}", bad.why)


def of_record(words: list[str], what: str, number: int, kind: str) -> Iterator[str]:
    rows = Facts(words, number) if what == "facts" else records(content(words, what))
    if 1 <= number <= len(rows):
        yield shown(f"record {number}", " | ".join(rows[number - 1]))
    elif rows:
        yield changed(f"the text of the {what}", f"record {number}")
    if kind in WITH_CAUSE and (number <= len(rows) or kind == "BadHeader"):
        try:
            yield from cause(words, what, rows, number, kind)
        except (IndexError, KeyError):
            yield changed(f"the text of the {what}", f"such record {number}")
    yield from told(manual.sentence(kind, "record"))


def cause(words: list[str], what: str, rows: list[list[str]] | Facts, number: int, kind: str) -> Iterator[str]:
    """The field that is at fault, where the record alone doesn't show it."""
    row = rows[number - 1] if number <= len(rows) else []
    if kind == "UnknownCategory":
        yield shown("category", row[0] if what == "store" else row[1])
    elif kind == "UnknownParent":
        ids = {each[0] for each in rows[1:]} | {"all"}
        yield from (shown("no member has the id", parent) for parent in row[3].split(";") if parent not in ids)
    elif kind == "DuplicateId":
        before = next((place for place, each in enumerate(rows[: number - 1], 1) if each[0] == row[0]), None)
        yield shown(f"record {before}", " | ".join(rows[before - 1])) if before else shown("id", row[0])
    elif kind == "UnknownMember" and words[0] == "cubeview":
        ids = [{each[0] for each in records(content(words, f"instance {place}"))[1:]} | {"all"} for place in range(1, len(row))]
        place = next((place for place, (known, id) in enumerate(zip(ids, row), 1) if id not in known), 1)
        yield shown(f"member of dimension {place}", row[place - 1])
    elif kind == "UnknownMember":
        yield shown("member", row[1] if what == "store" else row[0])
    elif kind == "BadHeader":
        wanted = {"instance": "id,category,name,parents", "facts": "member,value", "store": "category,member,count,sum,least,greatest"}
        members = "".join(f"m{place}," for place in range(1, int(words[1]) + 1)) if words[0] == "cubeview" else None
        yield shown("it must be", f"{members}value" if members and what == "facts" else wanted[what.split(" ")[0]])


def constraints_of(words: list[str], what: str) -> list[str]:
    """The texts of a schema's constraints, which are a line each; lines end at line feeds alone."""
    lines = [line for line in content(words, what).split("\n") if line.split()[:1] == ["constraint"]]
    return [line.strip(" \t\r")[len("constraint") :].strip(" \t") for line in lines]


def of_constraint(words: list[str], what: str, number: int) -> Iterator[str]:
    texts = constraints_of(words, what)
    is_there = 1 <= number <= len(texts)
    yield shown(f"constraint {number}", texts[number - 1]) if is_there else changed(f"the {what}", f"constraint {number}")


def of_violation(words: list[str], dimension: str, kind: str, rest: str) -> Iterator[str]:
    ids = [ESCAPED.sub(r"\1", each) for each in STRING.findall(rest)]
    rows = {row[0]: row for row in records(content(words, f"instance{dimension}"))[1:] if len(row) == 4}
    if kind == "Constraint":
        yield from of_constraint(words, f"schema{dimension}", int(rest.split(" ")[0]))
    for id in ids:
        if id != "all":
            yield shown("record of", " | ".join(rows[id])) if id in rows else changed("the instance", f'member "{id}"')
    if kind == "Partitioning" and ids[0] in rows:
        category = rest.rsplit(" ", 1)[1]
        yield from (shown(f"below the {category}", " | ".join(rows[id])) for id in above(rows, ids[0]) if rows[id][1] == category)
    yield from told(manual.sentence(kind, "instance"))


def above(rows: dict[str, list[str]], id: str) -> list[str]:
    """The members above this one, as far as they are shown."""
    found, new = [], [id]
    while new and len(found) < MOST_BELOW:
        new = list(dict.fromkeys(parent for one in new for parent in rows[one][3].split(";") if parent in rows and parent not in found))
        found += new
    return found


def of_word(words: list[str], number: int, kind: str) -> Iterator[str]:
    yield shown(f"word {number}", words[number - 1] if number <= len(words) else "")
    if words[:1] == ["implies"] and number == 4:
        if kind == "BadForm" and number <= len(words):
            yield from of_form(form.why_bad_formula(words[number - 1]))
        yield from told(manual.sentence(kind, "schema"))
    else:
        yield from told(manual.sentence_on(f"refused word {number} {kind}"))


def of_rejected(words: list[str], number: int) -> Iterator[str]:
    lines = content(words, "certificate").split("\n")
    is_there = 1 <= number < len(lines) or (number == len(lines) and lines[-1])
    yield shown(f"line {number}", lines[number - 1]) if is_there else "  the certificate ends too early"


def explained(words: list[str], printed: str) -> Iterator[str]:
    """Lines on what the program said: on its first line, on that of a violation, or on all findings of an audit."""
    said = printed.split("\n", 1)[0]
    if printed == "":
        for what in files_of(words) if words else ():
            if what != "K":
                content(words, what)
    elif printed == "usage\n" and words:
        line = manual.usage_of(words[0])
        yield f"  the words are: {line}" if line else f"  the commands are: {' '.join(manual.synopses())}"
    elif words[:1] == ["audit"] and not said.startswith("refused"):
        for number in re.findall(r"^redundant (\d+)$", printed, re.M):
            yield from of_constraint(words, "schema", int(number))
    elif found := re.fullmatch(r"refused (schema(?: \d)?) line (\d+) (\w+)", said):
        yield from of_line(words, found[1], int(found[2]), found[3])
    elif found := re.fullmatch(r"refused (instance(?: \d)?|facts|store) record (\d+) (\w+)", said):
        yield from of_record(words, found[1], int(found[2]), found[3])
    elif found := re.fullmatch(r"refused word (\d+) (\w+)", said):
        yield from of_word(words, int(found[1]), found[2])
    elif found := re.fullmatch(r"rejected line (\d+)", said):
        yield from of_rejected(words, int(found[1]))
    elif re.fullmatch(r"refused (\w+)(?: \d)? TooLong|refused (?:frozen|needs|shapes) TooMany|refused answer NotAnswerable", said):
        yield from told(manual.sentence_on(re.sub(r" \d ", " ", said)))
    elif found := re.fullmatch(r"refused instance( \d)? ([A-Z]\w+) (.*)\n", printed, re.S):
        yield from of_violation(words, found[1] or "", found[2], found[3])
