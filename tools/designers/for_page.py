"""What `after-no` says about each no of a page, as time allows: first its blocks for all of them, then simple constraints for some."""

from __future__ import annotations

import time
from typing import Dict, List, Sequence, Tuple

from pages.program import Program
from pages.questions import SCHEMA, Asker, Facts, Progress
from pages.texts import ALL

from . import after_no
from .asking import FACTS, INSTANCE, Data, Question

MOST, MOST_SIMPLE = 60, 6  # nos of a page of which it is said, and of which with simple constraints, for which many are tried
Key = Tuple[str, Tuple[str, ...]]


def take(ask: Program, files: Sequence[str]) -> None:
    """Reads the instance and the facts, before any question: the program must take them."""
    for name, file, kind in zip((INSTANCE, FACTS), files, ("instance", "facts")):
        ask.put(name, file, kind)
    if files:
        ask.must("check", SCHEMA, INSTANCE)
    if len(files) > 1:
        ask.must("rollup", SCHEMA, INSTANCE, FACTS, ALL)


def said(ask: Program, progress: Progress, facts: Facts, files: int, nos: Sequence[Key], end: float) -> Dict[Key, List[str]]:
    """The lines of each of these questions whose blocks came before the end; so many files are there beside the schema."""
    asker = Asker(ask, progress)
    data = Data(ask, facts.schema, files > 1) if files else None
    asked = {key: Question(ask, facts.schema, facts.canonical, *key, data, number) for number, key in enumerate(nos[:MOST], 1)}

    def blocks(key: Key, left: float) -> List[str]:
        return list(after_no.blocks(asked[key], time.monotonic() + left))

    def simple(key: Key, left: float) -> List[str]:
        return list(after_no.simple_block(asked[key], time.monotonic() + left))

    found = asker.all("nos: what to do", asked, blocks, end)
    shortest = sorted(found, key=lambda key: len(key[1]))[:MOST_SIMPLE]
    more = asker.all("nos: simple constraints", shortest, simple, end)
    return {key: lines + more.get(key, []) for key, lines in found.items()}
