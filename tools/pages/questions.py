"""All that a report asks the program about a schema, many questions at once, within a time.

What wasn't answered in time stays unanswered, and the page says so.
"""

from __future__ import annotations

import os
import queue
import sys
import time
from concurrent.futures import Future, ThreadPoolExecutor
from dataclasses import dataclass, field
from functools import cached_property
from itertools import combinations
from typing import Callable, Iterable, TypeVar

from . import texts
from .enough import Enough, below
from .program import Fault, Late, Program, stop_all

SCHEMA = "schema.txt"
TOO_MANY = "refused frozen TooMany"
MOST_CERTIFICATES = 500  # of a page
WITHOUT_PAIRS = 0.94  # of the time with pairs, what is left for the rest without them
Key = TypeVar("Key")
Value = TypeVar("Value")


@dataclass(frozen=True)
class Ways:
    """The frozen dimensions of a category: all of them, or the least where the program lists no more, or none known."""

    listed: tuple[texts.Frozen, ...] | None
    least: texts.Frozen | None = None
    too_many: bool = False


@dataclass
class Facts:
    """What the program said of a schema. Of a target and sources: a counterexample, or None for yes."""

    schema: texts.Schema
    text: str
    canonical: str
    findings: list[str] | None = None
    ways: dict[str, Ways] = field(default_factory=dict)
    has_members: dict[str, bool] = field(default_factory=dict)  # can a legal instance have a member of the category?
    always: dict[tuple[str, str], bool] = field(default_factory=dict)  # does each member of the child take the edge?
    enough: dict[str, Enough] = field(default_factory=dict)
    answers: dict[tuple[str, tuple[str, ...]], texts.Counterexample | None] = field(default_factory=dict)
    certificates: dict[tuple[str, tuple[str, ...]], str] = field(default_factory=dict)  # of yes's, in the form that is shorter
    after: dict[tuple[str, tuple[str, ...]], list[str]] = field(default_factory=dict)  # of no's, what after-no says
    asks_pairs: bool = True

    @cached_property
    def lower(self) -> dict[str, frozenset[str]]:
        """Of each category that others lie below these others: of the rest nobody asks."""
        found = {target: frozenset(below(self.schema, target)) for target in self.schema.categories}
        return {target: others for target, others in found.items() if others}

    @property
    def targets(self) -> list[str]:
        return list(self.lower)

    @property
    def singles(self) -> list[tuple[str, ...]]:
        return [(one,) for one in self.schema.categories]

    @property
    def pairs(self) -> list[tuple[str, ...]]:
        return list(combinations(self.schema.categories, 2)) if self.asks_pairs else []

    def asked(self, lists: list[tuple[str, ...]]) -> list[tuple[str, tuple[str, ...]]]:
        """The questions of these lists: those whose sources all lie below the target."""
        return [(target, sources) for sources in lists for target, others in self.lower.items() if others.issuperset(sources)]

    @property
    def enough_lists(self) -> list[tuple[str, tuple[str, ...]]]:
        """The lists of sources that were found to be enough, with their targets."""
        return [(target, sources) for target in self.targets if target in self.enough for sources in self.enough[target].lists]

    @property
    def yes(self) -> list[tuple[str, tuple[str, ...]]]:
        """The questions of the page that were answered by yes: first what is enough, then by target."""
        others = [(target, sources) for target in self.targets for sources in [*self.singles, *self.pairs]]
        answered = [key for key in dict.fromkeys(self.enough_lists + others) if key in self.answers]
        return [key for key in answered if self.answers[key] is None]

    @property
    def barren(self) -> list[str]:
        """The bottom categories that are known to have no member: no fact can stand there."""
        return [category for category in self.schema.bottoms if self.has_members.get(category) is False]

    def taken(self) -> dict[tuple[str, str], str]:
        """How edges are taken, as far as that is known: by all members, by some, or by none that a fact comes to."""
        lists = [self.ways[bottom].listed for bottom in self.schema.bottoms]
        used = {edge for ways in lists if ways is not None for way in ways for edge in way.edges}
        idle = set() if None in lists else set(self.schema.edges) - used
        kinds = {edge: "always" if always else "sometimes" for edge, always in self.always.items()}
        return {**kinds, **dict.fromkeys(idle, "idle")}


class Progress:
    """A line on standard error, where that is a terminal."""

    def __init__(self, tool: str = "report") -> None:
        self.tool, self.counted = tool, 0
        self.shown = sys.stderr.isatty()
        self.began = self.last = time.monotonic()

    def tell(self, what: str, done: int, of: int) -> None:
        now = time.monotonic()
        if self.shown and (now - self.last > 0.1 or done == of):
            self.last = now
            self.show(f"{what} {done} of {of}, {now - self.began:.0f} s")

    def count(self, what: str) -> None:
        """One more of something of which nobody knows how many there will be."""
        self.counted += 1
        if self.shown:
            self.show(f"{self.counted} {what}, {time.monotonic() - self.began:.0f} s")

    def show(self, text: str) -> None:
        print(f"\r\033[K{self.tool}: {text}", end="", file=sys.stderr, flush=True)

    def clear(self) -> None:
        if self.shown:
            print("\r\033[K", end="", file=sys.stderr, flush=True)


def workers() -> int:
    """How many processors there are for this process."""
    return len(os.sched_getaffinity(0)) if hasattr(os, "sched_getaffinity") else os.cpu_count() or 1


def next_of(finished: queue.SimpleQueue) -> Future:
    """The next one that is done. A wait without an end may miss Ctrl-C, so this one begins anew now and then."""
    while True:
        try:
            return finished.get(timeout=0.5)
        except queue.Empty:
            pass


class Asker:
    """Asks many questions at once. Each has until the end that is given."""

    def __init__(self, program: Program, progress: Progress):
        self.program, self.progress = program, progress

    def all(self, what: str, keys: Iterable[Key], ask: Callable[[Key, float], Value], end: float) -> dict[Key, Value]:
        """The answers that came before the end."""
        keys, found = list(keys), {}

        def one(key: Key) -> Value:
            left = end - time.monotonic()
            if left <= 0:
                raise Late
            return ask(key, left)

        with ThreadPoolExecutor(workers()) as pool:
            asked: dict[Future, Key] = {}
            finished: queue.SimpleQueue = queue.SimpleQueue()
            try:
                for key in keys:
                    future = pool.submit(one, key)
                    asked[future] = key
                    future.add_done_callback(finished.put)
                for done in range(1, len(keys) + 1):
                    future = next_of(finished)
                    try:
                        found[asked[future]] = future.result()
                    except Late:
                        pass
                    self.progress.tell(what, done, len(keys))
            except BaseException:
                # A fault, or Ctrl-C: the pool waits for what runs, so nothing more is begun, and what runs is ended.
                for future in asked:
                    future.cancel()
                stop_all()
                raise
        return found


def facts_of(program: Program, progress: Progress, most_for_pairs: int, seconds: float) -> Facts:
    """Asks all: what is enough first, then single sources, edges, the audit, ways, pairs and certificates, as time allows."""
    began = time.monotonic()
    text = (program.folder / SCHEMA).read_bytes().decode(errors="replace")
    canonical = program.must("format", SCHEMA).text
    schema = texts.in_own_words(texts.schema_of(canonical), text)
    facts = Facts(schema, text, canonical)
    facts.asks_pairs = len(schema.categories) <= most_for_pairs
    asker = Asker(program, progress)

    def until(part: float) -> float:
        """The end of a part of the time; where pairs aren't asked, theirs is left to the others."""
        return began + seconds * (part if facts.asks_pairs else min(1, part / WITHOUT_PAIRS))

    def findings(_: str, left: float) -> list[str]:
        return program.must("audit", SCHEMA, seconds=left).text.split("\n")[:-2]

    def least(category: str, left: float) -> texts.Frozen | None:
        answer = program.must("satisfiable", SCHEMA, category, ends=(0, 1), seconds=left)
        return texts.frozen_of(answer.text.split("\n")[1], schema) if answer.status == 0 else None

    def listed(category: str, left: float) -> tuple[texts.Frozen, ...] | None:
        answer = program.must("frozen", SCHEMA, category, ends=(0, 3), seconds=left)
        if answer.status == 3:
            if answer.text != TOO_MANY + "\n":
                raise Fault(answer.text.rstrip("\n"))
            return None
        *lines, count, _ = answer.text.split("\n")
        if count != f"count {len(lines)}":
            raise Fault(f"the program says {count}, and {len(lines)} lines were read", 70)
        return tuple(texts.frozen_of(line, schema) for line in lines)

    def summarizable(question: tuple[str, tuple[str, ...]], left: float) -> texts.Counterexample | None:
        target, sources = question
        answer = program.must("summarizable", SCHEMA, target, *sources, ends=(0, 1), seconds=left)
        example = texts.counterexample_of(answer.text, schema) if answer.status == 1 else None
        seeing = sum(example.sees(source) for source in sources) if example else 0
        if example and seeing != (example.views or 0):
            raise Fault(f"of {' '.join(sources) or 'no source'} {seeing} see the fact, and the program says {example.views}", 70)
        return example

    def certificate(question: tuple[str, tuple[str, ...]], left: float) -> str:
        target, sources = question
        end = time.monotonic() + left
        written = []
        for command in ("prove-short", "prove"):
            try:
                answer = program.must(command, SCHEMA, target, *sources, ends=(0, 6), seconds=max(0, end - time.monotonic()))
            except Late:
                break
            written += [answer.text] if answer.status == 0 else []
        if not written:
            raise Late
        return min(written, key=lambda text: text.count("\n"))

    def shown(target: str, sources: tuple[str, ...]) -> texts.Counterexample | None:
        key = (target, sources)
        if key not in facts.answers:
            facts.answers[key] = summarizable(key, until(0.4) - time.monotonic())
        return facts.answers[key]

    searches = {target: Enough(below(schema, target), target, shown) for target in facts.targets}

    def enough(target: str, left: float) -> Enough:
        return searches[target].search(time.monotonic() + min(left, share))

    def always(edge: tuple[str, str], left: float) -> bool:
        return program.must("implies", SCHEMA, edge[0], "_".join(edge), ends=(0, 1), seconds=left).status == 0

    leasts = asker.all("least frozen dimensions", schema.categories, least, until(0.12))
    facts.has_members = {category: frozen is not None for category, frozen in leasts.items()}
    if len(facts.barren) < len(schema.bottoms):
        # Each target has its share of the time, and those whose search didn't end share what the others left.
        for _ in range(2):
            unfinished = [target for target in facts.targets if not searches[target].is_whole]
            share = (until(0.4) - time.monotonic()) * workers() / max(1, len(unfinished))
            facts.enough.update(asker.all("targets: what is enough", unfinished, enough, until(0.4)))
        facts.answers.update(asker.all("single sources", facts.asked(facts.singles), remembered(facts, summarizable), until(0.6)))
    facts.always = asker.all("edges", schema.edges, always, until(0.68))
    facts.findings = asker.all("audit", ["audit"], findings, until(0.78)).get("audit")
    order = sorted(schema.declared, key=lambda category: category not in schema.bottoms)
    lists = asker.all("frozen dimensions of", order, listed, until(0.88))
    for category in schema.categories:
        known = lists.get(category)
        facts.ways[category] = Ways(known, leasts.get(category), category in lists and known is None)
    if len(facts.barren) < len(schema.bottoms):
        facts.answers.update(asker.all("pairs of sources", facts.asked(facts.pairs), remembered(facts, summarizable), until(0.95)))
        wanted = facts.yes[:MOST_CERTIFICATES]
        certificates = asker.all("certificates", wanted, certificate, until(1))
        facts.certificates = {question: certificates[question] for question in wanted if question in certificates}
    return facts


def remembered(facts: Facts, ask: Callable[[Key, float], Value]) -> Callable[[Key, float], Value]:
    """The same question, which isn't asked again where its answer came before."""

    def once(key: Key, left: float) -> Value:
        return facts.answers[key] if key in facts.answers else ask(key, left)

    return once
