"""Cubes by their definitions, slowly: the least counterexample by a loop over all tuples, and the view of a cube fact by fact.

It is a second opinion on the program, and asks it for one thing: the frozen dimensions of each schema alone, which
`frozen` lists by their codes. It is no part of the program, and nothing of it is proved.
"""

from __future__ import annotations

import csv
import io
import json
import re
from dataclasses import dataclass
from itertools import product
from typing import Callable, Iterable, Sequence

ALL = "All"
HEADER = "id,category,name,parents"
NAMED = re.compile(r'([A-Za-z0-9]+)=("(?:[^"\\]|\\.)*")')
Tuple = Sequence[str]


def above(parents: dict[str, Sequence[str]], start: str) -> set[str]:
    """What is reached from here, itself among it."""
    reached, left = set(), [start]
    while left:
        one = left.pop()
        if one not in reached:
            reached.add(one)
            left += parents.get(one, ())
    return reached


@dataclass(frozen=True)
class Schema:
    """The declared categories and the edges, each in declaration order."""

    declared: tuple[str, ...]
    edges: tuple[tuple[str, str], ...]

    @property
    def bottoms(self) -> list[str]:
        return [each for each in self.declared if all(each != parent for _, parent in self.edges)]


def schema_of(canonical: str) -> Schema:
    """The schema of a text that `format` printed."""
    lines = [line.split(" ") for line in canonical.splitlines()]
    return Schema(tuple(words[1] for words in lines if words[0] == "category"),
                  tuple((words[1], words[2]) for words in lines if words[0] == "edge"))


@dataclass(frozen=True)
class Frozen:
    """A frozen dimension: its line, and the parents of each category's member."""

    line: str
    names: dict[str, str]
    parents: dict[str, list[str]]

    def has(self, root: str, source: str, target: str) -> bool:
        """Does the root's member reach one of the source that reaches one of the target?"""
        return source in above(self.parents, root) and target in above(self.parents, source)

    def instance(self) -> str:
        """The same as an instance's text."""
        rows = [f"{each},{each},{name},{';'.join(p.replace(ALL, 'all') for p in self.parents[each])}" for each, name in self.names.items()]
        return "".join(line + "\n" for line in [HEADER, *rows])


def frozen_of(schema: Schema, line: str) -> Frozen:
    """The frozen dimension of a line; its names need no quotes in CSV."""
    names = {category: json.loads(text) for category, text in NAMED.findall(line)}
    parents: dict[str, list[str]] = {category: [] for category in names}
    for (child, parent), digit in zip(schema.edges, line.split(" ")[1]):
        if digit == "1":
            parents[child].append(parent)
    return Frozen(line, names, parents)


Ways = Callable[[int, str], Sequence[Frozen]]  # of a dimension, counted from 0, and a bottom category: its frozen dimensions by code


def cube(schemas: Sequence[Schema], ways: Ways, target: Tuple, sources: Sequence[Tuple]) -> str:
    """What `cube` prints."""
    for roots in product(*(schema.bottoms for schema in schemas)):
        # Each way up that reaches the target, with which sources it comes by.
        reaching = [[(way, [way.has(root, source[i], target[i]) for source in sources])
                     for way in ways(i, root) if way.has(root, root, target[i])] for i, root in enumerate(roots)]
        for choice in product(*reaching):
            seen = sum(map(all, zip(*(sees for _, sees in choice))))
            if seen != 1:
                return told([way for way, _ in choice], roots, target, seen)
    return "yes\n"


def told(choice: Sequence[Frozen], roots: Tuple, target: Tuple, seen: int) -> str:
    """The lines of a no."""
    shown = "".join(f"dimension {i}\n{way.line}\n{way.instance()}" for i, way in enumerate(choice, 1))
    aim = ",".join(target)
    return f"no\n{shown}fact {','.join(roots)} 1\ndirect {aim} 1\nviews {aim} {seen or 'none'}\n"


@dataclass(frozen=True)
class Instance:
    """The members in file order with `all` behind them: the category and the parents of each."""

    categories: dict[str, str]
    parents: dict[str, Sequence[str]]

    def reached(self, member: str, category: str) -> str | None:
        """The member of the category that a member reaches."""
        return next((each for each in above(self.parents, member) if self.categories[each] == category), None)


def instance_of(text: str) -> Instance:
    rows = list(csv.DictReader(io.StringIO(text)))
    categories = {row["id"]: row["category"] for row in rows} | {"all": ALL}
    return Instance(categories, {row["id"]: row["parents"].split(";") for row in rows})


def cubeview(instances: Sequence[Instance], facts: Iterable[tuple[Tuple, int]], target: Tuple) -> str:
    """What `cubeview` prints, where no id needs quotes."""
    rows: dict[tuple[str, ...], list[int]] = {}
    for members, value in facts:
        reached = tuple(each.reached(member, category) for each, member, category in zip(instances, members, target))
        if None not in reached:
            rows.setdefault(reached, []).append(value)
    places = [{member: place for place, member in enumerate(each.categories)} for each in instances]
    order = sorted(rows, key=lambda row: [place[member] for place, member in zip(places, row)])
    lines = [f"{','.join(row)},{len(rows[row])},{sum(rows[row])},{min(rows[row])},{max(rows[row])}\n" for row in order]
    return "".join(f"m{i}," for i in range(1, len(instances) + 1)) + "count,sum,least,greatest\n" + "".join(lines)
