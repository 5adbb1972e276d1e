"""Small schemas drawn at random, and a legal instance of each: no member has two parents that lead to one category by two members."""

from __future__ import annotations

import csv
import io
from dataclasses import dataclass
from random import Random

ALL, ALL_ID = "All", "all"
ODD = ["", " ", ",", '"', "\n", "é", "'"]  # in front of ids, so that some need quotes


@dataclass(frozen=True)
class Member:
    id: str
    category: str
    parents: tuple[str, ...]


@dataclass(frozen=True)
class Drawn:
    """A schema and an instance, as texts and as data: members in file order, and of each the members that it reaches, itself among them."""

    edges: tuple[tuple[str, str], ...]
    members: tuple[Member, ...]
    reached: dict[str, frozenset[str]]

    @property
    def categories(self) -> list[str]:
        return [*dict.fromkeys(child for child, _ in self.edges), ALL]

    @property
    def bottoms(self) -> set[str]:
        return {child for child, _ in self.edges} - {parent for _, parent in self.edges}

    @property
    def lowest(self) -> list[str]:
        """The members at which facts may stand."""
        return [member.id for member in self.members if member.category in self.bottoms]

    def category_of(self, id: str) -> str:
        return next((member.category for member in self.members if member.id == id), ALL)

    def schema_text(self) -> str:
        lines = [*(f"category {each}" for each in self.categories[:-1]), *(f"edge {child} {parent}" for child, parent in self.edges)]
        return "".join(line + "\n" for line in ["schema 1", *lines])

    def instance_text(self) -> str:
        rows = [[member.id, member.category, "", ";".join(member.parents)] for member in self.members]
        return csv_text([["id", "category", "name", "parents"], *rows])

    def up(self, id: str, category: str) -> str | None:
        """The member of the category that a member reaches."""
        return next((each for each in self.reached[id] if self.category_of(each) == category), None)


def csv_text(rows: list[list[str]]) -> str:
    out = io.StringIO(newline="")
    csv.writer(out, lineterminator="\n").writerows(rows)
    return out.getvalue()


def edges_in(rng: Random) -> tuple[tuple[str, str], ...]:
    """Edges of three to seven categories, the lower ones first; each has one upwards at least."""
    names = [f"C{place}" for place in range(rng.randint(3, 7))]
    edges = []
    for place, child in enumerate(names):
        above = [*names[place + 1 :], ALL]
        chosen = rng.sample(above, rng.randint(1, min(3, len(above))))
        edges += [(child, parent) for parent in above if parent in chosen]
    return tuple(edges)


def drawn(rng: Random, most_lowest: int) -> Drawn:
    """A schema and a legal instance with a few members, and so many where facts stand."""
    edges = edges_in(rng)
    names = [*dict.fromkeys(child for child, _ in edges)]
    bottoms = set(names) - {parent for _, parent in edges}
    reached: dict[str, frozenset[str]] = {ALL_ID: frozenset([ALL_ID])}
    of: dict[str, list[Member]] = {ALL: [Member(ALL_ID, ALL, ())]}
    category = {ALL_ID: ALL}
    for name in reversed(names):
        above = [parent for child, parent in edges if child == name and of.get(parent)]
        of[name] = []
        for place in range(rng.randint(1, most_lowest // len(bottoms) if name in bottoms else 3) if above else 0):
            parents = parents_in(rng, [rng.choice(of[parent]).id for parent in above], reached, category)
            member = Member(f"{rng.choice(ODD)}{name}x{place}", name, tuple(parents))
            of[name].append(member)
            category[member.id] = name
            reached[member.id] = frozenset([member.id]).union(*(reached[each] for each in parents))
    members = [member for name in names for member in of[name]]
    rng.shuffle(members)
    return Drawn(edges, tuple(members), reached)


def parents_in(rng: Random, proposed: list[str], reached: dict[str, frozenset[str]], category: dict[str, str]) -> list[str]:
    """Some of the proposed members, so that the laws hold: none is reached by another, and no category is reached twice."""
    rng.shuffle(proposed)
    chosen = proposed[:1]
    for one in proposed[1:]:
        together = reached[one].union(*(reached[each] for each in chosen))
        is_shortcut = any(one in reached[each] or each in reached[one] for each in chosen)
        if not is_shortcut and len({category[each] for each in together}) == len(together) and rng.random() < 0.7:
            chosen.append(one)
    return chosen
