"""After a no of `summarizable`: which members break it, which lists of sources are enough, and what must be added to the schema.

    olap-tools after-no SCHEMA [INSTANCE [FACTS]] TARGET SOURCE..

Three blocks. With an instance: its members that reach the target, but not by exactly one source, the largest groups by their ways up;
with facts also how many facts and which sums are lost, or counted more than once. Then the shortest lists of sources that contain these
and are enough, or the category to split so that there is one. Then, for each bottom category, the weakest constraint with which the
answer is yes (or that none leaves it a member), and simple constraints that are enough too and leave each category its members, and
some of them a way to the target: the weakest of these, and whether the instance meets each.
After a yes it says so. The status is 0, or the program's.
"""

from __future__ import annotations

import argparse
import time
from collections import defaultdict
from dataclasses import replace
from typing import Iterator, Sequence

from pages import program, texts
from pages.enough import below
from pages.program import Fault, Late

from . import asking, simple, split
from .asking import INSTANCE, SCHEMA, Data, Question, path

SECONDS = 60
MORE = 3  # sources that are added to a list
MOST_GROUPS = 10  # of members that are told apart


def parser() -> argparse.ArgumentParser:
    words = argparse.ArgumentParser(prog="olap-tools after-no", description="what breaks a total, and what mends it", allow_abbrev=False)
    words.add_argument("words", nargs="+", metavar="SCHEMA [INSTANCE [FACTS]] TARGET SOURCE..")
    words.add_argument("--seconds", type=float, default=SECONDS, metavar="N", help=f"stop asking after N seconds ({SECONDS})")
    return words


# ---- which members


def broken(question: Question) -> list[list[str]]:
    """The records of `breaks`: a member, what it reaches, and by how many sources."""
    answer = question.ask.must("breaks", SCHEMA, INSTANCE, question.target, *question.sources, ends=(0, 1))
    return asking.records(answer.text.partition("\n")[2]) if answer.status == 1 else []


def members_block(question: Question, data: Data) -> Iterator[str]:
    rows = broken(question)
    if not rows:
        yield "members: on this instance the totals agree today"
        return
    groups = defaultdict(list)
    for member, target, ways in rows:
        groups[int(ways), data.members[member].category, data.ups[member], target].append(member)
    yield f"members: {len(rows)} reach {question.target} by none of the sources, or by several"
    largest = sorted(groups.items(), key=lambda group: -len(group[1]))
    for (ways, category, up, target), some in largest[:MOST_GROUPS]:
        yield f"  {fate(ways)} at {target}: {len(some)} of {category} by way of {up or 'nothing'}, as {some[0]}{amounts(data, some)}"
    for count in sorted({ways for (ways, *_), _ in largest[MOST_GROUPS:]}):
        rest = [(target, some) for (ways, _, _, target), some in largest[MOST_GROUPS:] if ways == count]
        members = [member for _, some in rest for member in some]
        where = f"{len({target for target, _ in rest})} of {question.target}"
        yield f"  {fate(count)} in smaller groups, at {where}: {len(members)}, as {members[0]}{amounts(data, members)}"


def fate(ways: int) -> str:
    return "lost" if ways == 0 else f"counted {ways} times"


def amounts(data: Data, members: list[str]) -> str:
    """How many facts these members have, and which sum, where there are facts."""
    counts, sums = data.amounts
    return f": {sum(counts[each] for each in members)} facts, sum {sum(sums[each] for each in members)}" if data.has_facts else ""


# ---- which lists


def shortest(question: Question, more: Sequence[str], end: float) -> tuple[list[tuple[str, ...]], texts.Counterexample | None]:
    """The shortest lists of the question's sources and some of these others that are enough, and the first counterexample: only
    what a counterexample lacks is added."""
    found, seen, left, first = [], set(), [frozenset(question.sources)], None
    while left and (not found or len(left[0]) == len(found[0])):
        some = left.pop(0)
        if some in seen:
            continue
        seen.add(some)
        added = some - set(question.sources)
        named = (*question.sources, *(category for category in question.schema.categories if category in added))
        answer = question.ask.must("summarizable", question.file, question.target, *named, ends=(0, 1), seconds=max(0.1, end - time.monotonic()))
        if answer.status == 0:
            found.append(named)
            continue
        example = texts.counterexample_of(answer.text, question.schema)
        first = first or example
        if example.views is None and len(some) < len(question.sources) + MORE:
            left += [some | {source} for source in more if source not in some and example.sees(source)]
    return found, first


def lists_block(question: Question, end: float) -> Iterator[str]:
    """The shortest lists that contain the sources and are enough; or why there are none, and a split with which there are."""
    found, first = shortest(question, below(question.schema, question.target), end)
    for named in found:
        yield f"sources: {question.target} from {' '.join(named)} is enough"
    if not found and first is not None and first.views is not None:
        yield f"sources: no further ones help, for these have a fact {first.views} times"
    elif not found and first is not None:
        yield f"sources: no list with up to {MORE} more is enough; in those that have what is lost, a fact counts twice"
        yield from split_block(question, first, end)


def split_block(question: Question, lost: texts.Counterexample, end: float) -> Iterator[str]:
    """A category on the way of the lost fact, the topmost, after whose split some of its kinds are what lacks."""
    for category in reversed([each for each in below(question.schema, question.target) if each in lost.frozen.names]):
        if category in question.sources:
            continue
        try:
            kinds = split.kinds_of(question.ask, question.schema, category, max(0.1, end - time.monotonic()))
            changed = split_by(question, kinds)
        except Fault as fault:
            if fault.status not in (1, 3):
                raise
            continue  # there is one kind alone, or there are more than the program takes
        found, _ = shortest(changed, list(kinds.names.values()), end)
        if found:
            yield f"split: after `olap-tools split SCHEMA {category}`, {question.target} from {' '.join(found[0])} is enough"
            return


def split_by(question: Question, kinds: split.Kinds) -> Question:
    """The same question of the schema with kinds."""
    file = f"split{question.number}.txt"
    head, constraints = split.lines(kinds)
    (question.ask.folder / file).write_text(split.joined(head, constraints), encoding="utf-8")
    text = question.ask.must("format", file).text
    return replace(question, schema=texts.schema_of(text), canonical=text, data=None, file=file)


# ---- which constraints


def needs_block(question: Question, end: float) -> Iterator[str]:
    """The weakest constraints with which the answer is yes, or which bottom categories they leave no member."""
    seconds = max(0.1, end - time.monotonic())
    answer = question.ask.must("needs", SCHEMA, question.target, *question.sources, ends=(0, 1, 3), seconds=seconds)
    if answer.status == 3:
        yield f"needed: {answer.text.strip()}"
    elif answer.status == 1:
        gone = ", ".join(line[len("unsatisfiable ") :] for line in answer.text.splitlines()[1:])
        yield f"needed: no constraints make it a yes and leave a member of {gone}"
    else:
        yield "needed: the weakest constraints with which the answer is yes:"
        for line in answer.text.splitlines():
            constraint = line[len("constraint ") :]
            yield f"  {line}{met(question, constraint)}{emptied(question, constraint, end)}"


def met(question: Question, constraint: str) -> str:
    """Whether the instance meets the constraint."""
    if question.data is None:
        return ""
    answer = question.ask.must("check", question.changed(constraint), INSTANCE, ends=(0, 3))
    return "   (your instance meets it)" if answer.status == 0 else f"   ({answer.text.strip()[len('refused instance ') :]} in your instance)"


def emptied(question: Question, constraint: str, end: float) -> str:
    """Whether the answer is yes only because the constraint lets nothing come to the target."""
    bottom = constraint.partition(":")[0]
    told = question.ask.must("implies", question.changed(constraint), bottom, f"!{path(bottom, question.target)}", ends=(0, 1, 3),
                             seconds=max(0.1, end - time.monotonic()))
    return f"   (then no {bottom} reaches {question.target})" if told.status == 0 else ""


def simple_block(question: Question, end: float) -> Iterator[str]:
    """Simple constraints, unless the schema is at its limits, so that it is refused with one more."""
    for bottom in question.schema.bottoms:
        try:
            found = simple.weakest(question, bottom, end)
        except Fault as fault:
            if fault.status != 3:
                raise
            yield f"simple: none can be tried: {fault}"
            return
        yield from (f"simple: constraint {constraint}{met(question, constraint)}" for constraint in found)


# ---- all of it


def blocks(question: Question, end: float) -> Iterator[str]:
    """What is said first: of members, of lists, and of what is needed."""
    if question.data is not None:
        yield from members_block(question, question.data)
    yield from lists_block(question, end)
    yield from needs_block(question, end)


def lines(question: Question, seconds: float) -> Iterator[str]:
    end = time.monotonic() + seconds
    answer = question.ask.must("summarizable", SCHEMA, question.target, *question.sources, ends=(0, 1))
    asking.must_be_taken(question)
    if answer.status == 0:
        yield "yes: nothing needs to be added"
        return
    try:
        yield from blocks(question, end)
        yield from simple_block(question, end)
    except Late:
        yield f"(not all was asked within {seconds:g} seconds: --seconds N)"


def main(words: list[str]) -> None:
    chosen = parser().parse_args(words)
    if len(chosen.words) < 2:
        raise Fault("a schema and a target are needed", 2)
    with program.opened() as ask:
        question = asking.question_in(ask, chosen.words)
        program.write_out("".join(line + "\n" for line in lines(question, chosen.seconds)))
