"""Which views to keep so that each of some targets can be computed from them, with the fewest rows.

    olap-tools keep SCHEMA INSTANCE TARGET..

A view has at most as many rows as its category has members in the instance. It prints the categories to keep, from the smallest,
with the most rows that each may have, and for each target the kept views that it is computed from. A store has at most eight views.
"""

from __future__ import annotations

import argparse
from collections import Counter
from typing import Dict, FrozenSet, List

from pages import program, texts
from pages.enough import MOST, Enough, below
from pages.program import Fault

from . import asking
from .asking import INSTANCE, SCHEMA

MOST_VIEWS = 8


def parser() -> argparse.ArgumentParser:
    words = argparse.ArgumentParser(prog="olap-tools keep", description="the fewest rows to keep for some targets", allow_abbrev=False)
    words.add_argument("schema", metavar="SCHEMA")
    words.add_argument("instance", metavar="INSTANCE")
    words.add_argument("targets", nargs="+", metavar="TARGET")
    words.add_argument("--most", type=int, default=MOST, metavar="N", help=f"lists of at most N sources ({MOST})")
    return words


Lists = Dict[str, List[FrozenSet[str]]]


def cheapest(lists: Lists, rows: dict[str, int]) -> tuple[int, frozenset[str]] | None:
    """The set of categories with the fewest rows that contains a list of each target, found by branch and bound."""
    targets = sorted(lists, key=lambda target: len(lists[target]))
    best: tuple[int, frozenset[str]] | None = None

    def cost(some: frozenset[str]) -> int:
        return sum(rows[category] for category in some)

    def choose(place: int, some: frozenset[str]) -> None:
        nonlocal best
        if len(some) > MOST_VIEWS or (best is not None and (cost(some), len(some)) >= (best[0], len(best[1]))):
            return
        if place == len(targets):
            best = (cost(some), some)
            return
        grown = {some | each for each in lists[targets[place]]}
        for more in sorted(grown, key=lambda more: (cost(more), len(more), sorted(more))):
            choose(place + 1, more)

    choose(0, frozenset())
    return best


def main(words: list[str]) -> None:
    chosen = parser().parse_args(words)
    with program.opened() as ask:
        schema, _ = asking.schema_in(ask, chosen.schema)
        ask.put(INSTANCE, chosen.instance, "instance")
        ask.must("check", SCHEMA, INSTANCE)
        rows = Counter(member.category for member in asking.members_in(ask).values())
        rows["All"] = 1

        def shown(target: str, sources: tuple[str, ...]) -> texts.Counterexample | None:
            answer = ask.must("summarizable", SCHEMA, target, *sources, ends=(0, 1))
            return texts.counterexample_of(answer.text, schema) if answer.status == 1 else None

        lists = {}
        for target in dict.fromkeys(chosen.targets):
            if target not in schema.categories:
                raise Fault(f"no category of the schema: {target}")
            found = Enough(below(schema, target), target, shown, chosen.most).search().lists
            lists[target] = [frozenset([target]), *map(frozenset, found)]
    best = cheapest(lists, rows)
    if best is None:
        raise Fault(f"no {MOST_VIEWS} views are enough for all these targets", 1)
    kept = sorted(best[1], key=lambda category: (rows[category], category))
    alone = sum(rows[target] for target in lists)
    told = [f"keep {' '.join(kept)}: at most {best[0]} rows; the targets themselves have {alone}"]
    for target, some in lists.items():
        chosen_list = min((each for each in some if each <= best[1]), key=lambda each: (sum(rows[c] for c in each), sorted(each)))
        told.append(f"{target} from {' '.join(sorted(chosen_list))}")
    program.write_out("".join(line + "\n" for line in told))
