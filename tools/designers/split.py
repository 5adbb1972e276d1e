"""A category for each set of parents that its members may have, in the place of one category.

    olap-tools split SCHEMA CATEGORY                          prints the schema
    olap-tools split SCHEMA CATEGORY INSTANCE --into FOLDER   writes schema.txt and instance.csv into a new folder

Members keep their ids, so facts stay as they are. Where some members of a category lie in a state and others in a country, each kind
becomes a level of its own, whose totals can be asked for separately. Constraints that say nothing new are left out.
"""

from __future__ import annotations

import argparse
import os
import re
from itertools import combinations
from pathlib import Path

from pages import program, texts
from pages.program import Fault, Program

from . import asking
from .asking import INSTANCE, SCHEMA

CHANGED = "changed.txt"

STRING = r'"(?:[^"\\]|\\.)*"'
ATOM = re.compile(rf"{STRING}|([A-Za-z][A-Za-z0-9]*(?:[._][A-Za-z][A-Za-z0-9]*)*)((?: (?:=|<|<=) (?:{STRING}|-?\d+))?)")
WORDS = {"true", "false", "one"}


def parser() -> argparse.ArgumentParser:
    words = argparse.ArgumentParser(prog="olap-tools split", description="a category for each set of parents", allow_abbrev=False)
    words.add_argument("schema", metavar="SCHEMA")
    words.add_argument("category", metavar="CATEGORY")
    words.add_argument("instance", nargs="?", metavar="INSTANCE")
    words.add_argument("--into", metavar="FOLDER", help="a new folder for both files")
    return words


class Kinds:
    """The sets of parents of a category, and a name for each that isn't taken."""

    def __init__(self, schema: texts.Schema, category: str, sets: list[tuple[str, ...]]):
        self.schema, self.category, self.sets = schema, category, sets
        self.names: dict[tuple[str, ...], str] = {}
        for parents in sets:
            name = category + "".join("Top" if each == "All" else each for each in parents)
            while name in schema.categories or name in self.names.values():
                name += "X"
            self.names[parents] = name

    def spread(self, word: str, compared: str, kind: tuple[str, ...] | None) -> str:
        """An atom about the category, as one about its kinds; at a root of one kind it is of that kind."""
        parts = re.split(r"([._])", word)
        if self.category not in parts[::2]:
            return word + compared
        if kind is not None:
            if len(parts) > 1 and parts[1] == "_" and parts[2] not in kind:
                return "false"
            return "".join([self.names[kind], *parts[1:]]) + compared
        found = []
        for parents, name in self.names.items():
            at = parts.index(self.category)
            if not (at + 1 < len(parts) and parts[at + 1] == "_" and parts[at + 2] not in parents):
                found.append("".join(name if each == self.category else each for each in parts) + compared)
        return "false" if not found else found[0] if len(found) == 1 else f"({' | '.join(found)})"

    def formula(self, text: str, kind: tuple[str, ...] | None) -> str:
        def changed(found: re.Match) -> str:
            return found[0] if found[1] is None or found[1] in WORDS else self.spread(found[1], found[2], kind)

        return ATOM.sub(changed, text)


def lines(kinds: Kinds) -> tuple[list[str], list[str]]:
    """The lines of the schema with the kinds: all but its constraints, and these."""
    schema, category, head, constraints = kinds.schema, kinds.category, ["schema 2"], []
    for each in schema.declared:
        number = " number" if each in schema.numbered else ""
        head += [f"category {name}{number}" for name in (kinds.names.values() if each == category else [each])]
    for child, parent in schema.edges:
        if child == category:
            head += [f"edge {name} {parent}" for parents, name in kinds.names.items() if parent in parents]
        elif parent == category:
            head += [f"edge {child} {name}" for name in kinds.names.values()]
        else:
            head.append(f"edge {child} {parent}")
    for each in schema.constraints:
        if each.root == category:
            constraints += [f"{name}: {kinds.formula(each.formula, parents)}" for parents, name in kinds.names.items()]
        else:
            constraints.append(f"{each.root}: {kinds.formula(each.formula, None)}")
    for parents, name in kinds.names.items():
        if len(parents) > 1:
            constraints.append(f"{name}: " + " & ".join(f"{name}_{parent}" for parent in parents))
    # What lay below one member of the category at most lies below one of all its kinds.
    for below in sorted(lower(schema, category), key=schema.declared.index):
        constraints += [f"{below}: !({below}.{one} & {below}.{other})" for one, other in combinations(kinds.names.values(), 2)]
    return head, constraints


def lower(schema: texts.Schema, category: str) -> set[str]:
    found, new = set(), {category}
    while new:
        new = {child for child, parent in schema.edges if parent in new} - found
        found |= new
    return found


def joined(head: list[str], constraints: list[str]) -> str:
    return "".join(line + "\n" for line in [*head, *(f"constraint {each}" for each in constraints)])


def thinned(ask: Program, head: list[str], constraints: list[str]) -> str:
    """The schema's text without the constraints that `audit` calls redundant, the last of them first."""
    while True:
        text = joined(head, constraints)
        (ask.folder / CHANGED).write_text(text, encoding="utf-8")
        found = [int(line.split()[1]) for line in ask.must("audit", CHANGED).text.splitlines() if line.startswith("redundant")]
        if not found:
            return text
        del constraints[found[-1] - 1]


def kinds_of(ask: Program, schema: texts.Schema, category: str, seconds: float | None = None) -> Kinds:
    """The kinds of a category, by the sets of edges of its frozen dimensions."""
    answer = ask.must("shapes", SCHEMA, category, seconds=seconds)
    sets = set()
    for line in answer.text.splitlines():
        if line.startswith("frozen"):
            edges = texts.frozen_of(line, schema).edges
            sets.add(tuple(parent for child, parent in edges if child == category))
    if not sets:
        raise Fault(f"{category} can have no member, so it has no kinds", 1)
    if len(sets) == 1:
        raise Fault(f"all members of {category} have parents in the same categories: {' '.join(*sets)}", 1)
    order = [edge for edge in schema.edges if edge[0] == category]
    return Kinds(schema, category, sorted(sets, key=lambda some: [order.index((category, parent)) for parent in some]))


def instance_text(ask: Program, kinds: Kinds) -> str:
    members = asking.members_in(ask)
    of = {"all": "All", **{one: member.category for one, member in members.items()}}
    order = [parent for child, parent in kinds.schema.edges if child == kinds.category]
    rows = [["id", "category", "name", "parents"]]
    for member in members.values():
        category = member.category
        if category == kinds.category:
            has = {of[parent] for parent in member.parents}
            category = kinds.names[tuple(parent for parent in order if parent in has)]
        rows.append([member.id, category, member.name, ";".join(member.parents)])
    return asking.csv_text(rows)


def main(words: list[str]) -> None:
    chosen = parser().parse_args(words)
    if (chosen.instance is None) != (chosen.into is None):
        raise Fault("an instance and --into FOLDER go together", 2)
    with program.opened() as ask:
        schema, _ = asking.schema_in(ask, chosen.schema)
        if chosen.category not in schema.declared:
            raise Fault(f"no declared category of the schema: {chosen.category}")
        kinds = kinds_of(ask, schema, chosen.category)
        text = thinned(ask, *lines(kinds))
        if chosen.instance is None:
            program.write_out(text)
            return
        ask.put(INSTANCE, chosen.instance, "instance")
        ask.must("check", SCHEMA, INSTANCE)
        folder = Path(chosen.into)
        try:
            os.mkdir(folder)
        except OSError as error:
            raise Fault(f"{folder}: {error.strerror}", 5) from None
        asking.written(folder, "schema.txt", text)
        asking.written(folder, "instance.csv", instance_text(ask, kinds))
