"""What `prove` and `prove-short` write: where `summarizable` says yes, a certificate, by the program and by tools/check-certificate;
else what `summarizable` writes.

Tried are all questions about the location schema, some about schemas written by hand or drawn, and families of schemas. Where a short
certificate is known, one that is much longer is a fault: there the program has found none, and has written all cases.
"""

import itertools
import os
import random
import tempfile
from collections.abc import Iterator
from concurrent.futures import ThreadPoolExecutor
from dataclasses import dataclass
from pathlib import Path

import families

from . import by_hand, checker, drawn
from .compared import NO, YES, Question, altered, asked, differs

SEED, SCHEMAS, QUESTIONS = 29, 100, 4  # of what is drawn
PROVERS = {"prove": "verify", "prove-short": "verify-short"}

# Random schemas in layers, by edges, constraints for a hundred edges, and seed, with questions that are answered by yes.
LAYERED = (
    (60, 100, 22, "L3x3 L2x4 L1x4"),
    (60, 75, 52, "L4x1 L3x4"),
    (60, 75, 56, "L3x1 L0x2"),
    (60, 40, 51, "L4x3 L2x0"),
    (60, 40, 43, "L3x1 L1x0"),
    (60, 75, 58, "L4x3 L1x2"),
    (200, 30, 49, "L6x1 L1x2 L2x5"),
)

Said = tuple[int, bytes]  # a status, and what is printed


@dataclass(frozen=True)
class Tried:
    name: str
    schema: bytes
    question: Question
    most: int | None = None  # how many lines a certificate may have
    provers: tuple[str, ...] = tuple(PROVERS)
    some_no: float = 1.0  # how often a no is compared

    def asked(self, command: str) -> Said:
        with tempfile.TemporaryDirectory() as name:
            (Path(name) / "S").write_bytes(self.schema)
            return asked(Path(name), command, "S", *self.question)


def certificate_faults(tried: Tried, prover: str, text: bytes) -> Iterator[str]:
    """Of a certificate, and of what is said of it once it is altered."""
    if (said := checker.said(tried.schema, tried.question, text)) != "accepted":
        yield f"{prover}: check-certificate says {said} of {text[:200]!r}"
    chance = random.Random(f"{SEED} {prover} {tried.question}")
    other = chance.choice([*altered(chance, text, text)])
    for each, wanted in ((text, "accepted"), (other, None)):
        if wrong := differs(PROVERS[prover], tried.schema, tried.question, each, wanted):
            yield wrong
    if (lines := text.count(b"\n")) > (tried.most or lines):
        yield f"{prover} writes {lines} lines, more than {tried.most}"


def tried_faults(tried: Tried) -> Iterator[str]:
    answer = tried.asked("summarizable")
    if answer[0] not in (YES, NO):
        yield f"summarizable ends with {answer[0]} and {answer[1]!r}"
    if answer[0] == NO and random.Random(f"{SEED} {tried.question}").random() > tried.some_no:
        return
    for prover in tried.provers:
        status, text = tried.asked(prover)
        if status != answer[0] or (status == NO and text != answer[1]):
            yield f"{prover} ends with {status} and {text[:60]!r}, and summarizable with {answer[0]}"
        elif status == YES:
            yield from certificate_faults(tried, prover, text)


# ---- what is tried


def location() -> Iterator[Tried]:
    """Each question. The longest of the shortest certificates has 23 lines."""
    schema = (checker.TOP / "examples" / "location" / "schema.txt").read_bytes()
    categories = checker.MODULE.Schema(schema).categories
    lists = [some for size in range(len(categories) + 1) for some in itertools.combinations(categories, size)]
    yield from (Tried("location", schema, [target, *sources], 23, some_no=0.1) for target in categories for sources in lists)


def by_hand_ones() -> Iterator[Tried]:
    """The questions to which texts were written by hand."""
    asked_there = dict.fromkeys((schema, question) for _, _, schema, question, _ in by_hand.CERTIFICATES + by_hand.OTHERS)
    yield from (Tried(f"{schema}, by hand", by_hand.SCHEMAS[schema], question.split()) for schema, question in asked_there)


def drawn_ones() -> Iterator[Tried]:
    for number in range(SCHEMAS):
        chance = random.Random(SEED * SCHEMAS + number)
        schema = drawn.schema(chance)
        text = schema.text().encode()
        yield from (Tried(f"drawn schema {number}", text, each) for each in drawn.questions(chance, schema.categories, QUESTIONS))


def in_families() -> Iterator[Tried]:
    yield Tried("names along a chain of 30", families.names_along_a_chain(30).encode(), ["All"], 151)
    yield Tried("20 layers of exclusive ways", families.diamond(20, is_exclusive=True).encode(), ["L20", "L10"], 200)
    # In the long form each choice of ways is a case of its own.
    yield Tried("20 layers of free ways", families.free_ways(20).encode(), ["L20", "L10"], 100, ("prove-short",))
    for edges, constraints, seed, question in LAYERED:
        schema = families.layered(edges, constraints, seed).encode()
        yield Tried(f"{edges} edges in layers, seed {seed}", schema, question.split(), 999)


def faults() -> Iterator[str]:
    every = [*in_families(), *location(), *by_hand_ones(), *drawn_ones()]
    with ThreadPoolExecutor(os.cpu_count()) as pool:
        for tried, found in zip(every, pool.map(lambda each: [*tried_faults(each)], every)):
            yield from (f"{tried.name}, {' '.join(tried.question)}: {fault}" for fault in found)
