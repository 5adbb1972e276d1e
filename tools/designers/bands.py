"""For each category of numbers: which numbers no member may have, and which have no name in a category that depends on them.

    olap-tools bands SCHEMA

Bands are ranges of numbers that constraints give a name, such as `Price < 100 -> Band = "low"`. A number that falls into two bands, or
into none where one is wanted, can be no member's: a hole or an overlap. A member with a number that leaves the name
open may have any other name. The program is asked at each number at which an answer may change. Status 1 if something is printed,
0 if nothing is.
"""

from __future__ import annotations

import argparse
import re
import sys
from typing import Iterator

from pages import program, texts
from pages.program import Program

from . import asking
from .asking import SCHEMA

LEAST, GREATEST = -(10**18), 10**18
STRING = r'"(?:[^"\\]|\\.)*"'


def parser() -> argparse.ArgumentParser:
    words = argparse.ArgumentParser(prog="olap-tools bands", description="holes and overlaps of bands of numbers", allow_abbrev=False)
    words.add_argument("schema", metavar="SCHEMA")
    return words


def constants(schema: texts.Schema, category: str) -> list[int]:
    """The numbers that the names of a category are compared with."""
    form = re.compile(rf"(?<![\w]){category} (?:=|<=|<) (-?\d+)")
    plain = (re.sub(STRING, '""', each.formula) for each in schema.constraints)
    return sorted({int(number) for formula in plain for number in form.findall(formula)})


def stretches(numbers: list[int]) -> list[tuple[int, int]]:
    """The stretches of numbers that answer every comparison with these alike."""
    starts = sorted({LEAST, *numbers, *(each + 1 for each in numbers if each < GREATEST)})
    return [(start, (starts[place + 1] - 1) if place + 1 < len(starts) else GREATEST) for place, start in enumerate(starts)]


def told(found: list[tuple[int, int]]) -> str:
    """The stretches, joined where they touch."""
    joined: list[list[int]] = []
    for first, last in found:
        if joined and joined[-1][1] + 1 == first:
            joined[-1][1] = last
        else:
            joined.append([first, last])
    return ", ".join(
        str(first) if first == last else f"{'up' if first == LEAST else first} to {'the greatest' if last == GREATEST else last}"
        for first, last in joined
    )


def names(schema: texts.Schema, category: str) -> list[str]:
    """The strings that the names of a category are compared with."""
    form = re.compile(rf"(?<![\w]){category} = ({STRING})")
    return list(dict.fromkeys(string for each in schema.constraints for string in form.findall(each.formula)))


def above(schema: texts.Schema, category: str) -> list[str]:
    found, left = set(), [category]
    while left:
        one = left.pop()
        new = {parent for child, parent in schema.edges if child == one} - found
        found |= new
        left += new
    return [each for each in schema.declared if each in found]


def faults(ask: Program, schema: texts.Schema) -> Iterator[str]:
    for category in schema.declared:
        numbers = constants(schema, category) if category in schema.numbered else []
        if not numbers:
            continue
        parts = stretches(numbers)

        def always(formula: str) -> bool:
            return ask.must("implies", SCHEMA, category, formula, ends=(0, 1)).status == 0

        gone = [part for part in parts if always(f"!{category} = {part[0]}")]
        if len(gone) == len(parts):
            yield f"{category}: no member may be there at all"
            continue
        if gone:
            yield f"{category}: no member may have {told(gone)}"
        for other in above(schema, category):
            strings = names(schema, other)
            if other in schema.numbered or not strings:
                continue
            one = " | ".join(f"{category}.{other} = {string}" for string in strings[:60])
            free = [part for part in parts if part not in gone and not always(f"{category} = {part[0]} & {category}.{other} -> ({one})")]
            if free and len(free) < len(parts) - len(gone):
                yield f"{category}: with {told(free)} a member may have any other name in {other}"


def main(words: list[str]) -> None:
    chosen = parser().parse_args(words)
    with program.opened() as ask:
        schema, _ = asking.schema_in(ask, chosen.schema)
        found = list(faults(ask, schema))
    program.write_out("".join(line + "\n" for line in found))
    sys.exit(1 if found else 0)
