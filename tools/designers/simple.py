"""Simple constraints that turn a no into a yes: those that a designer would write, tried on counterexamples before the program is asked."""

from __future__ import annotations

import time
from dataclasses import dataclass
from itertools import combinations, permutations
from typing import Callable, Iterator, Set

from pages import texts

from .asking import SCHEMA, Question

MOST_KEPT = 12  # of which the weakest are looked for

Above = Callable[[str], Set[str]]


@dataclass(frozen=True)
class Candidate:
    """A constraint, and whether a counterexample meets it, by the categories above its member of the root."""

    text: str
    root: str
    is_met: Callable[[set[str], frozenset[str]], bool]

    def excludes(self, members: tuple[texts.Member, ...], above: Above) -> bool:
        """Is there a member of the root, and is the constraint false at it?"""
        parents = {member.category: frozenset(member.parents) for member in members}
        return self.root in parents and not self.is_met(above(self.root), parents[self.root])


def candidates(question: Question, bottom: str) -> Iterator[Candidate]:
    """One step or its absence, reaching a category or not, and of two categories: one if the other, not both, exactly one."""
    schema = question.schema
    upward = {category: {parent for child, parent in schema.edges if child == category} for category in schema.declared}

    def above(category: str) -> set[str]:
        found, left = set(), [category]
        while left:
            new = upward.get(left.pop(), set()) - found
            found |= new
            left += new
        return found - {"All"}

    for root in [bottom, *(each for each in schema.declared if each in above(bottom))]:
        up = [each for each in schema.declared if each in above(root)]
        for d in (each for each in up if each in upward[root]):
            yield Candidate(f"{root}: {root}_{d}", root, lambda above, parents, d=d: d in parents)
            yield Candidate(f"{root}: !{root}_{d}", root, lambda above, parents, d=d: d not in parents)
        for d in up:
            yield Candidate(f"{root}: {root}.{d}", root, lambda above, parents, d=d: d in above)
            yield Candidate(f"{root}: !{root}.{d}", root, lambda above, parents, d=d: d not in above)
        asked = [each for each in up if each in {question.target, *question.sources} or each in upward[root]]
        for d, e in permutations(asked, 2):
            yield Candidate(f"{root}: {root}.{d} -> {root}.{e}", root, lambda above, parents, d=d, e=e: d not in above or e in above)
        for d, e in combinations(asked, 2):
            yield Candidate(f"{root}: !({root}.{d} & {root}.{e})", root, lambda above, parents, d=d, e=e: not {d, e} <= above)
            yield Candidate(f"{root}: {root}.{d} ^ {root}.{e}", root, lambda above, parents, d=d, e=e: (d in above) != (e in above))


def unsatisfiable(question: Question, schema: str, end: float) -> set[str]:
    answer = question.ask.must("audit", schema, seconds=max(0.1, end - time.monotonic()))
    return {line for line in answer.text.splitlines() if line.startswith("unsatisfiable")}


def empties(question: Question, schema: str, bottom: str, end: float) -> bool:
    """Does no member of the bottom category reach the target any more?"""
    seconds = max(0.1, end - time.monotonic())
    return question.ask.must("implies", schema, bottom, f"!{bottom}.{question.target}", ends=(0, 1), seconds=seconds).status == 0


def weakest(question: Question, bottom: str, end: float) -> list[str]:
    """The weakest candidates with which each member of the bottom category reaches the target by exactly one source."""
    before = unsatisfiable(question, SCHEMA, end)
    examples: list[tuple[tuple[texts.Member, ...], Above]] = []

    def left(schema: str) -> bool:
        """Is there a counterexample still? It is kept, so that it isn't asked about again."""
        seconds = max(0.1, end - time.monotonic())
        answer = question.ask.must("implies", schema, bottom, question.formula(bottom), ends=(0, 1), seconds=seconds)
        if answer.status == 1:
            _, members = texts.shown_by_no(answer.text, question.schema)
            examples.append((members, above_in(members)))
        return answer.status == 1

    if not left(SCHEMA):
        return []
    kept: list[Candidate] = []
    for candidate in candidates(question, bottom):
        if len(kept) == MOST_KEPT:
            break
        if all(candidate.excludes(*example) for example in examples):
            schema = question.changed(candidate.text)
            if not left(schema) and unsatisfiable(question, schema, end) <= before and not empties(question, schema, bottom, end):
                kept.append(candidate)
    return [each.text for each in kept if not any(is_stronger(question, each, other, end) for other in kept if other is not each)]


def above_in(members: tuple[texts.Member, ...]) -> Above:
    parents = {member.category: member.parents for member in members}

    def above(category: str) -> set[str]:
        found, open_ = set(), list(parents.get(category, ()))
        while open_:
            one = open_.pop()
            if one not in found and one != "all":
                found.add(one)
                open_ += parents.get(one, ())
        return found

    return above


def is_stronger(question: Question, one: Candidate, other: Candidate, end: float) -> bool:
    """Does the other follow from the one, and not the one from the other, or do they say the same and the other is shorter?"""

    def follows(of: Candidate, given: Candidate) -> bool:
        root, _, formula = of.text.partition(": ")
        seconds = max(0.1, end - time.monotonic())
        return question.ask.must("implies", question.changed(given.text), root, formula, ends=(0, 1), seconds=seconds).status == 0

    if not follows(other, one):
        return False
    return not follows(one, other) or (len(other.text), other.text) < (len(one.text), one.text)
