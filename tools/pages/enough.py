"""Which views are enough for a target: the least lists of sources from which it can be computed, asked of the program.

A no of the program shows one fact on one legal instance. A list of sources is enough only if just one of them has that fact, so
each no rules out many lists that need not be asked, and each list that is given has the program's own yes.
"""

from __future__ import annotations

import time
from functools import lru_cache
from typing import Callable, Optional, Protocol, Tuple

from .program import Late
from .texts import Schema

MOST = 4  # sources of a list


class Example(Protocol):
    """What a no of the program shows: one fact."""

    def sees(self, source: str) -> bool:
        """Does the fact come to the target by this source?"""


Ask = Callable[[str, Tuple[str, ...]], Optional[Example]]


def below(schema: Schema, target: str) -> tuple[str, ...]:
    """The categories below the target, in declaration order. No other source has anything for it."""
    children = children_in(schema.edges)
    found, new = {target}, [target]
    while new:
        new = [child for child in dict.fromkeys(each for one in new for each in children.get(one, ())) if child not in found]
        found.update(new)
    return tuple(category for category in schema.categories if category in found and category != target)


@lru_cache(maxsize=8)
def children_in(edges: tuple[tuple[str, str], ...]) -> dict[str, list[str]]:
    children: dict[str, list[str]] = {}
    for child, parent in edges:
        children.setdefault(parent, []).append(child)
    return children


class Enough:
    """The search for one target, in lists of these sources. `lists` are those found so far, the shortest first; `is_whole` says whether they are all."""

    def __init__(self, sources: tuple[str, ...], target: str, ask: Ask, most: int = MOST, has_all: bool = True):
        self.sources, self.target, self.ask, self.most = sources, target, ask, most
        self.has_all = has_all  # are these all the sources there are?
        self.places = {source: place for place, source in enumerate(sources)}
        self.examples: list[frozenset[str]] = []  # of each no, the sources that have its fact
        self.lists: list[tuple[str, ...]] = []
        self.is_whole = False
        self.asked = 0

    def search(self, end: float | None = None) -> "Enough":
        """Looks for them until the end, where there is one."""
        try:
            for size in range(self.most + 1):
                self.grow(frozenset(), size, set(), end)
            self.is_whole = self.has_all
        except Late:
            pass
        self.lists.sort(key=len)
        return self

    def grow(self, some: frozenset[str], size: int, seen: set[frozenset[str]], end: float | None) -> None:
        """Asks about each list of at most so many sources that has these, and that no example rules out."""
        if some in seen or self.named(some) in self.lists:
            return
        seen.add(some)
        if end is not None and time.monotonic() > end:
            raise Late
        if any(len(some & example) > 1 for example in self.examples):
            return
        missed = next((example for example in self.examples if not some & example), None)
        if missed is None:
            missed = self.asked_about(some)
        if missed is not None and not some & missed and len(some) < size:
            for source in sorted(missed, key=self.places.__getitem__):
                self.grow(some | {source}, size, seen, end)

    def asked_about(self, some: frozenset[str]) -> frozenset[str] | None:
        """What the program shows that rules these sources out; None where they are enough."""
        self.asked += 1
        example = self.ask(self.target, self.named(some))
        if example is None:
            self.lists.append(self.named(some))
            return None
        self.examples.append(frozenset(source for source in self.sources if example.sees(source)))
        return self.examples[-1]

    def named(self, some: frozenset[str]) -> tuple[str, ...]:
        return tuple(sorted(some, key=self.places.__getitem__))
