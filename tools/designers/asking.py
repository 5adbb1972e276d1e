"""What these tools share: the words of a question, its files, and the program's answers about a changed schema."""

from __future__ import annotations

import csv
import io
from collections import Counter
from dataclasses import dataclass
from functools import cached_property
from pathlib import Path

from pages import questions, texts
from pages.program import Fault, Program

SCHEMA, INSTANCE, FACTS = questions.SCHEMA, "instance.csv", "facts.csv"


@dataclass
class Data:
    """An instance and, where there are such, facts: files that the program takes, each read once."""

    ask: Program
    schema: texts.Schema
    has_facts: bool

    @cached_property
    def members(self) -> dict[str, texts.Member]:
        """The members of the instance, by their ids."""
        return members_in(self.ask)

    @cached_property
    def ups(self) -> dict[str, str]:
        """Of each member the categories above it, but for `All`."""
        found: dict[str, frozenset[str]] = {"all": frozenset()}
        for start in self.members:
            left = [start]
            while left:
                one = left[-1]
                missing = [] if one in found else [parent for parent in self.members[one].parents if parent not in found]
                left += missing
                if not missing:
                    left.pop()
                    if one not in found:
                        found[one] = frozenset().union(*(found[each] | self.category_of(each) for each in self.members[one].parents))
        order = self.schema.declared
        return {one: " ".join(category for category in order if category in above) for one, above in found.items()}

    def category_of(self, id: str) -> set[str]:
        return {self.members[id].category} if id in self.members else set()

    @cached_property
    def amounts(self) -> tuple[Counter, Counter]:
        """How many facts each member has, and what they come to."""
        counts: Counter = Counter()
        sums: Counter = Counter()
        for member, value in records((self.ask.folder / FACTS).read_bytes().decode("utf-8-sig")) if self.has_facts else ():
            counts[member] += 1
            sums[member] += int(value)
        return counts, sums


@dataclass
class Question:
    """A target and its sources, over a schema and, where there are such, an instance and facts."""

    ask: Program
    schema: texts.Schema
    canonical: str
    target: str
    sources: tuple[str, ...]
    data: Data | None = None
    number: int = 0  # of several questions, so that each has files of its own
    file: str = SCHEMA  # of the schema

    def changed(self, *constraints: str) -> str:
        """Puts down the schema with these constraints more, and gives the file's name."""
        lines = "".join(f"constraint {each}\n" for each in constraints)
        name = f"changed{self.number}.txt"
        (self.ask.folder / name).write_text(self.canonical + lines, encoding="utf-8")
        return name

    def formula(self, bottom: str) -> str:
        """That a member of the bottom category reaches the target by exactly one of the sources, if it reaches it."""
        ways = ", ".join(path(bottom, source, self.target) for source in self.sources)
        return f"{path(bottom, self.target)} -> one({ways})"


def path(*categories: str) -> str:
    """The atom that says that these are reached one after another."""
    return ".".join(categories)


def schema_in(ask: Program, file: str) -> tuple[texts.Schema, str]:
    """The schema of a file, and its canonical text."""
    ask.put(SCHEMA, file)
    text = ask.must("format", SCHEMA).text
    return texts.schema_of(text), text


def question_in(ask: Program, words: list[str], most_files: int = 2) -> Question:
    """The question of the words SCHEMA [INSTANCE [FACTS]] TARGET SOURCE..: the target is the first word that is a category."""
    schema, text = schema_in(ask, words[0])
    at = next((place for place, word in enumerate(words[1:], 1) if word in schema.categories), None)
    if at is None:
        raise Fault(f"none of these words is a category of {words[0]}: {' '.join(words[1:]) or 'there is none'}", 2)
    files = words[1:at]
    if len(files) > most_files:
        raise Fault(f"{files[most_files]}: no category of {words[0]}, and no further file is asked for", 2)
    for name, file, kind in zip((INSTANCE, FACTS), files, ("instance", "facts")):
        ask.put(name, file, kind)
    data = Data(ask, schema, len(files) > 1) if files else None
    return Question(ask, schema, text, words[at], tuple(words[at + 1 :]), data)


def must_be_taken(question: Question) -> None:
    """The program takes the instance, and the facts where there are such."""
    if question.data is not None:
        question.ask.must("check", SCHEMA, INSTANCE)
        if question.data.has_facts:
            question.ask.must("rollup", SCHEMA, INSTANCE, FACTS, question.target)


def records(text: str) -> list[list[str]]:
    """The records of a CSV text that the program has read or printed, without its header."""
    csv.field_size_limit(len(text) + 1)
    return [record for record in csv.reader(io.StringIO(text, newline="")) if record][1:]


def members_in(ask: Program) -> dict[str, texts.Member]:
    """The members of the instance, by their ids."""
    text = (ask.folder / INSTANCE).read_bytes().decode("utf-8")
    return {member.id: member for member in texts.members_of(text)}


def written(folder: Path, name: str, text: str) -> None:
    """Writes a file that isn't there yet."""
    try:
        with open(folder / name, "x", encoding="utf-8", newline="") as out:
            out.write(text)
    except OSError as error:
        raise Fault(f"{folder / name}: {error.strerror}", 5) from None


def csv_text(rows: list[list[str]]) -> str:
    out = io.StringIO(newline="")
    csv.writer(out, lineterminator="\n").writerows(rows)
    return out.getvalue()
