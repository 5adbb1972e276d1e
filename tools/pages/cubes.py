"""All that a report asks the program about a cube: which lists of tuples are enough for each tuple of targets, within a time.

A tuple is a word, as the program has it: `State,Month`.
"""

from __future__ import annotations

import time
from dataclasses import dataclass, field
from functools import cached_property, lru_cache
from itertools import islice, product
from typing import Iterator, Sequence

from . import texts
from .enough import Enough, below, children_in
from .program import Fault, Program
from .questions import Asker, Progress, workers

MOST_TARGETS = 48
MOST_BELOW = 4096  # tuples below a target that are looked at
MOST_SOURCES = 8


@dataclass(frozen=True)
class Example:
    """A no of `cube`: the ways up of one fact, a dimension each, its lines, and what the views come to (None: no row)."""

    ways: tuple[texts.Counterexample, ...]
    lines: tuple[str, ...]
    views: int | None
    seen: tuple[frozenset[str], ...]  # of each dimension the categories by which the fact comes to the target

    def sees(self, source: str) -> bool:
        """Does the fact come to the target by this source, in each dimension?"""
        return all(each in seen for seen, each in zip(self.seen, source.split(",")))


@dataclass
class Cube:
    """What the program said of the schemas together. Of a target and sources: a counterexample, or None for yes."""

    names: tuple[str, ...]
    schemas: tuple[texts.Schema, ...]
    texts: tuple[str, ...]
    enough: dict[str, Enough] = field(default_factory=dict)
    answers: dict[tuple[str, tuple[str, ...]], Example | None] = field(default_factory=dict)

    @cached_property
    def parts(self) -> list[list[str]]:
        """Of each dimension the categories that others lie below."""
        return [[each for each in schema.categories if below(schema, each)] for schema in self.schemas]

    @cached_property
    def targets(self) -> list[str]:
        """The tuples of them that are asked about: all, or of many those nearest to the top."""
        if product_of(self.parts) <= MOST_TARGETS:
            return joined(self.parts)
        from_top = [by_distance(schema, texts.ALL, part) for schema, part in zip(self.schemas, self.parts)]
        return list(islice(nearest(from_top), MOST_TARGETS))

    def shown(self) -> list[tuple[str, tuple[str, ...], Example]]:
        """Of each target the no that has the most sources, and not the same one twice."""
        found: dict[str, tuple[tuple[str, ...], Example]] = {}
        for (target, sources), example in self.answers.items():
            if example is not None and len(sources) > len(found.get(target, ((), None))[0]):
                found[target] = sources, example
        return [(target, *found[target]) for target in self.targets if target in found]


def joined(parts: Sequence[Sequence[str]]) -> list[str]:
    return [",".join(each) for each in product(*parts)]


def product_of(parts: Sequence[Sequence[str]]) -> int:
    """How many tuples of the parts there are."""
    many = 1
    for part in parts:
        many *= len(part)
    return many


def by_distance(schema: texts.Schema, top: str, categories: Sequence[str]) -> list[str]:
    """The categories by how many edges they lie below the top."""
    steps = steps_below(schema.edges, top)
    return sorted(categories, key=lambda each: steps.get(each, 0))


@lru_cache(maxsize=2048)
def steps_below(edges: tuple[tuple[str, str], ...], top: str) -> dict[str, int]:
    children, steps, level = children_in(edges), {top: 0}, [top]
    while level:
        level = [child for child in dict.fromkeys(each for one in level for each in children.get(one, ())) if child not in steps]
        steps.update(dict.fromkeys(level, len(steps)))
    return steps


def nearest(parts: Sequence[Sequence[str]]) -> Iterator[str]:
    """The tuples of the parts, those first whose places in them come to the least. They are many, so none is made before it is asked for."""

    def adding_up(left: Sequence[Sequence[str]], total: int) -> Iterator[tuple[str, ...]]:
        if not left:
            yield from [()] if total == 0 else []
            return
        least = total - sum(len(part) - 1 for part in left[1:])
        for place in range(max(0, least), min(len(left[0]) - 1, total) + 1):
            for others in adding_up(left[1:], total - place):
                yield (left[0][place], *others)

    for total in range(sum(len(part) - 1 for part in parts) + 1):
        yield from (",".join(each) for each in adding_up(parts, total))


def below_tuple(schemas: Sequence[texts.Schema], target: str) -> tuple[tuple[str, ...], bool]:
    """The tuples below the target, in each dimension the target's category or one below it; and whether these are all. Of many, the nearest."""
    tops = target.split(",")
    parts = [(*below(schema, each), each) for schema, each in zip(schemas, tops)]
    if product_of(parts) <= MOST_BELOW:
        return tuple(each for each in joined(parts) if each != target), True
    near = [by_distance(schema, each, part) for schema, each, part in zip(schemas, tops, parts)]
    return tuple(islice((each for each in nearest(near) if each != target), MOST_BELOW)), False


def next_lower(schemas: Sequence[texts.Schema], target: str) -> tuple[str, ...]:
    """The tuples of what lies directly below the target in each dimension, or of the target's category itself if nothing does."""
    parts = [[child for child, parent in schema.edges if parent == each] or [each] for schema, each in zip(schemas, target.split(","))]
    return tuple(islice((",".join(each) for each in product(*parts)), MOST_SOURCES))


def example_of(text: str, schemas: Sequence[texts.Schema]) -> Example:
    """What a no of `cube` shows."""
    lines = text.split("\n")
    marks = [place for place, line in enumerate(lines) if line == f"dimension {len([m for m in lines[:place] if m.startswith('dimension ')]) + 1}"]
    said = [line.split(" ") for line in lines[-4:-1]]
    if lines[0] != "no" or len(marks) != len(schemas) or [line[0] for line in said] != ["fact", "direct", "views"]:
        raise Fault("this counterexample of a cube can't be read", 70)
    (_, roots, _), (_, target, direct), (_, again, views) = said
    if direct != "1" or again != target:
        raise Fault("the end of this counterexample can't be read", 70)
    ways, ends = [], [*marks[1:], len(lines) - 4]
    for schema, start, end, root, aim in zip(schemas, marks, ends, roots.split(","), target.split(",")):
        frozen, members = texts.shown_by_no("no\n" + "".join(line + "\n" for line in lines[start + 1 : end]), schema)
        ways.append(texts.Counterexample(frozen, members, root, aim, None))
    kept = [line for start in marks for line in lines[start : start + 2]]
    seen = [frozenset(each for each in schema.categories if way.sees(each)) for schema, way in zip(schemas, ways)]
    return Example(tuple(ways), (*kept, *lines[-4:-1]), None if views == "none" else int(views), tuple(seen))


def cube_of(program: Program, progress: Progress, files: Sequence[str], names: Sequence[str], seconds: float) -> Cube:
    """Asks what is enough for each tuple of targets, as time allows."""
    began = time.monotonic()
    end, asker = began + seconds, Asker(program, progress)
    schemas, read = [], []
    for file in files:
        read.append((program.folder / file).read_bytes().decode(errors="replace"))
        schemas.append(texts.in_own_words(texts.schema_of(program.must("format", file).text), read[-1]))
    cube = Cube(tuple(names), tuple(schemas), tuple(read))

    def shown(target: str, sources: tuple[str, ...]) -> Example | None:
        key = (target, sources)
        if key not in cube.answers:
            left = end - time.monotonic()
            answer = program.must("cube", str(len(files)), *files, target, *sources, ends=(0, 1), seconds=max(left, 0))
            example = example_of(answer.text, schemas) if answer.status == 1 else None
            if example and sum(example.sees(source) for source in sources) != (example.views or 0):
                raise Fault(f"of {' '.join(sources)} others see the fact than the program says", 70)
            cube.answers[key] = example
        return cube.answers[key]

    lower = {target: below_tuple(schemas, target) for target in cube.targets}
    searches = {target: Enough(sources, target, shown, has_all=are_all) for target, (sources, are_all) in lower.items()}
    for _ in range(2):
        unfinished = [target for target in cube.targets if not searches[target].is_whole]
        share = (began + 0.8 * seconds - time.monotonic()) * workers() / max(1, len(unfinished))

        def search(target: str, left: float) -> Enough:
            return searches[target].search(time.monotonic() + min(left, share))

        cube.enough.update(asker.all("targets: what is enough", unfinished, search, began + 0.8 * seconds))
    asker.all("the next lower tuples", cube.targets, lambda target, _: shown(target, next_lower(schemas, target)), end)
    return cube
