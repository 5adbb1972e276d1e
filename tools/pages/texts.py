"""The texts that the program prints, as data: canonical schemas, frozen lines, instances and counterexamples.

These readers take only what the program printed or accepted. They judge nothing, and if a text isn't as docs/FORMATS.md says,
they stop with a `Fault`.
"""

from __future__ import annotations

import csv
import io
import re
from dataclasses import dataclass, replace

from .program import Fault

ALL = "All"
NAMED = re.compile(r' ([A-Za-z][A-Za-z0-9]*)="((?:[^"\\]|\\["\\])*)"', re.S)
STRING = re.compile(r'"((?:[^"\\]|\\["\\])*)"', re.S)
ESCAPED = re.compile(r"\\(.)", re.S)


@dataclass(frozen=True)
class Constraint:
    root: str
    formula: str


@dataclass(frozen=True)
class Schema:
    """The declared categories, edges and constraints, each in declaration order; and the categories whose names are numbers."""

    declared: tuple[str, ...]
    edges: tuple[tuple[str, str], ...]
    constraints: tuple[Constraint, ...]
    numbered: frozenset[str] = frozenset()

    @property
    def categories(self) -> tuple[str, ...]:
        return (*self.declared, ALL)

    @property
    def bottoms(self) -> tuple[str, ...]:
        """The categories that are no edge's parent: facts stand at their members."""
        above = {parent for _, parent in self.edges}
        return tuple(category for category in self.declared if category not in above)


@dataclass(frozen=True)
class Member:
    id: str
    category: str
    name: str
    parents: tuple[str, ...]


@dataclass(frozen=True)
class Frozen:
    """A frozen dimension: its line, the name of each category's member, and the edges that have a 1."""

    line: str
    names: dict[str, str]
    edges: tuple[tuple[str, str], ...]


@dataclass(frozen=True)
class Counterexample:
    """A no of `summarizable`: the instance, the root with the fact, and what the views come to (None: no row)."""

    frozen: Frozen
    members: tuple[Member, ...]
    root: str
    target: str
    views: int | None

    def above(self, category: str) -> set[str]:
        """The categories that this category's member reaches; empty where there is no such member."""
        parents = {member.id: member.parents for member in self.members}
        reached: set[str] = set()
        left = [category] if category in parents or category == ALL else []
        while left:
            one = left.pop()
            one = ALL if one == "all" else one
            if one not in reached:
                reached.add(one)
                left += parents.get(one, ())
        return reached

    def sees(self, source: str) -> bool:
        """Does the fact come to the target by this source?"""
        return self.target in self.above(source) and source in self.above(self.root)


def schema_of(text: str) -> Schema:
    """The schema of a canonical text, as `format` prints it."""
    declared, edges, constraints, numbered = [], [], [], set()
    for line in text.split("\n")[1:-1]:
        word, _, rest = line.partition(" ")
        if word == "category":
            name, _, kind = rest.partition(" ")
            declared.append(name)
            numbered |= {name} if kind == "number" else set()
        elif word == "edge":
            child, _, parent = rest.partition(" ")
            edges.append((child, parent))
        elif word == "constraint":
            root, _, formula = rest.partition(": ")
            constraints.append(Constraint(root, formula))
        else:
            raise Fault(f"this line of a canonical schema isn't known: {line}", 70)
    return Schema(tuple(declared), tuple(edges), tuple(constraints), frozenset(numbered))


def without_return(line: str) -> str:
    """The line without a carriage return at its end."""
    return line[:-1] if line.endswith("\r") else line


def in_own_words(schema: Schema, text: str) -> Schema:
    """The schema with each formula as it stands in the user's text, whose constraints are a line each."""
    lines = [without_return(line) for line in text.split("\n") if line.split()[:1] == ["constraint"]]
    if len(lines) != len(schema.constraints):
        raise Fault(f"the program knows {len(schema.constraints)} constraints, and {len(lines)} were read", 70)
    own = tuple(Constraint(one.root, line.partition(":")[2].strip()) for one, line in zip(schema.constraints, lines))
    return replace(schema, constraints=own)


def frozen_of(line: str, schema: Schema) -> Frozen:
    """The frozen dimension of a line that begins with `frozen`."""
    found = re.match(r"frozen ([01]+|-)", line)
    if not found or (found[1] != "-" and len(found[1]) != len(schema.edges)):
        raise Fault(f"this line is no frozen line of the schema: {line}", 70)
    rest = line[found.end() :]
    names = {match[1]: ESCAPED.sub(r"\1", match[2]) for match in NAMED.finditer(rest)}
    if "".join(match[0] for match in NAMED.finditer(rest)) != rest:
        raise Fault(f"the names of this frozen line can't be read: {line}", 70)
    edges = tuple(edge for edge, digit in zip(schema.edges, found[1]) if digit == "1")
    return Frozen(line, names, edges)


def members_of(text: str) -> tuple[Member, ...]:
    """The members of an instance's text, without `all`."""
    csv.field_size_limit(len(text) + 1)
    rows = [row for row in csv.reader(io.StringIO(text[text.startswith("\ufeff") :], newline="")) if row]
    if not rows or rows[0] != ["id", "category", "name", "parents"] or any(len(row) != 4 for row in rows):
        raise Fault("these records are no instance", 70)
    return tuple(Member(id, category, name, tuple(parents.split(";")) if parents else ()) for id, category, name, parents in rows[1:])


def shown_by_no(text: str, schema: Schema) -> tuple[Frozen, tuple[Member, ...]]:
    """What a no of `implies` shows: the frozen dimension, and the same as an instance, which must agree."""
    first, frozen_line, instance = (text.split("\n", 2) + ["", ""])[:3]
    if first != "no":
        raise Fault(f"this is no answer of the program: {first}", 70)
    frozen, members = frozen_of(frozen_line, schema), members_of(instance)
    if {member.category: member.name for member in members} != frozen.names:
        raise Fault("the frozen line and the instance below it differ", 70)
    return frozen, members


def counterexample_of(text: str, schema: Schema) -> Counterexample:
    """What a no of `summarizable` shows."""
    body, fact, direct, views, _ = ("\n\n\n\n" + text).rsplit("\n", 4)
    frozen, members = shown_by_no(body.lstrip("\n") + "\n", schema)
    said = [line.split(" ") for line in (fact, direct, views)]
    words = [line[0] for line in said]
    if words != ["fact", "direct", "views"] or fact.split(" ")[2:] != ["1"] or said[1][1:] != [said[2][1], "1"]:
        raise Fault("the end of this counterexample can't be read", 70)
    return Counterexample(frozen, members, said[0][1], said[1][1], None if said[2][2] == "none" else int(said[2][2]))
