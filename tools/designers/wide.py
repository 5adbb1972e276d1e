"""An instance from the wide table that many have: a row for each lowest member, a column for each level, empty where there is none.

    olap-tools wide TABLE LEVEL..                     prints the instance; the levels are headings, the lowest first
    olap-tools wide TABLE LEVEL.. --apart LOW:HIGH    takes HIGH as not above LOW, as in Week:Year; may be given several times
    olap-tools wide TABLE LEVEL.. --facts COLUMN      prints the facts: the lowest member of each row, and the number in that column

A level is above a lower one if each value of the lower has one value of it, or none, in all its rows. If a few values of many lie
in two, such as a week at the end of a year in a calendar, that is a fault, or the levels are apart: you say which. A member's
parents are the nearest members above it. Faults, and rows without a lowest member, are reported with their rows; then nothing is
printed, and the status is 1. An id is `Level:value`, in which `%` and `;` are written `%25` and `%3B`.
"""

from __future__ import annotations

import argparse
import csv
import io
import re
from collections import defaultdict
from typing import Dict, List, Tuple

from pages import program
from pages.program import Fault

from . import asking

NAME = re.compile(r"[A-Za-z][A-Za-z0-9]*")
MOST_TOLD = 10
NEARLY = 50  # one value in so many may be a mistake; where more differ, the one level isn't above the other

Table = List[Tuple[int, Dict[str, str]]]


def parser() -> argparse.ArgumentParser:
    words = argparse.ArgumentParser(prog="olap-tools wide", description="an instance from a wide table", allow_abbrev=False)
    words.add_argument("table", metavar="TABLE")
    words.add_argument("levels", nargs="+", metavar="LEVEL")
    words.add_argument("--apart", metavar="LOW:HIGH", action="append", default=[], help="the level HIGH isn't above LOW")
    words.add_argument("--facts", metavar="COLUMN", help="the facts in this column, in place of the instance")
    return words


def table_in(file: str, columns: list[str]) -> Table:
    """The rows of a CSV file with a heading, by the record's number, with these columns."""
    try:
        with open(file, "rb") as source:
            text = source.read().decode("utf-8-sig")
    except OSError as error:
        raise Fault(f"{file}: {error.strerror}", 4) from None
    except UnicodeDecodeError as error:
        raise Fault(f"{file}: no UTF-8 at byte {error.start}") from None
    csv.field_size_limit(len(text) + 1)
    records = [record for record in csv.reader(io.StringIO(text, newline="")) if record]
    heading = records[0] if records else []
    for column in columns:
        if heading.count(column) != 1:
            raise Fault(f"{file}: {heading.count(column)} headings {column}; there are {', '.join(heading)}")
    rows = []
    for number, record in enumerate(records[1:], 2):
        if len(record) != len(heading):
            raise Fault(f"{file}: record {number} has {len(record)} fields, and the heading {len(heading)}")
        rows.append((number, {column: record[heading.index(column)].strip() for column in columns}))
    return rows


def id_of(level: str, value: str) -> str:
    return f"{level}:{value}".replace("%", "%25").replace(";", "%3B")


class Levels:
    """Which level is above which, but for those that are apart, and what lies in what."""

    def __init__(self, rows: Table, levels: list[str], apart: set[tuple[str, str]]):
        self.levels = levels
        self.values: dict[str, dict[str, None]] = {level: {} for level in levels}
        self.faults: list[str] = []
        lies: dict[tuple[str, str], dict[str, dict[str, int]]] = defaultdict(lambda: defaultdict(dict))
        for number, row in rows:
            if not row[levels[0]]:
                self.faults.append(f"record {number} has no {levels[0]}")
            for at, low in enumerate(levels):
                if row[low]:
                    self.values[low][row[low]] = None
                    for high in levels[at + 1 :]:
                        lies[low, high][row[low]].setdefault(row[high], number)
        self.above: dict[str, list[str]] = {level: [] for level in levels}
        self.parent: dict[tuple[str, str], dict[str, str]] = {}
        self.mixed: list[tuple[str, str]] = []  # of which some values lie in several
        for (low, high), found in lies.items():
            if (low, high) not in apart:
                self.decide(low, high, found)

    def decide(self, low: str, high: str, found: dict[str, dict[str, int]]) -> None:
        """Whether the one level is above the other; a few values that lie in two are faults."""
        some = {value: [each for each in highs if each] for value, highs in found.items()}
        mixed = [value for value, highs in found.items() if len(highs) > 1]
        if not any(some.values()) or len(mixed) > max(1, len(found) // NEARLY) or (mixed and len(found) == len(mixed)):
            return
        for value in mixed:
            where = ", ".join(f"{each or 'nothing'} in record {number}" for each, number in found[value].items())
            self.faults.append(f"{low} {value} lies in several of {high}: {where}")
        self.mixed += [(low, high)] if mixed else []
        self.above[low].append(high)
        self.parent[low, high] = {value: highs[0] for value, highs in some.items() if highs}

    def parents(self, level: str, value: str) -> list[str]:
        """The nearest of what is above the member."""
        over = {high: self.parent[level, high][value] for high in self.above[level] if value in self.parent[level, high]}

        def is_far(high: str) -> bool:
            return any(high in self.above[other] and self.parent[other, high].get(over[other]) == over[high] for other in over if other != high)

        return [id_of(high, over[high]) for high in over if not is_far(high)] or ["all"]


def instance_rows(levels: Levels) -> list[list[str]]:
    rows = [["id", "category", "name", "parents"]]
    for level in levels.levels:
        rows += [[id_of(level, value), level, value, ";".join(levels.parents(level, value))] for value in levels.values[level]]
    return rows


def fact_rows(rows: Table, lowest: str, column: str) -> tuple[list[list[str]], list[str]]:
    """The facts, and the rows whose number is none."""
    found, faults = [["member", "value"]], []
    for number, row in rows:
        if re.fullmatch(r"[+-]?\d+", row[column]):
            found.append([id_of(lowest, row[lowest]), row[column]])
        else:
            faults.append(f"record {number} has no whole number in {column}: {row[column] or 'nothing'}")
    return found, faults


def apart_in(words: list[str], levels: list[str]) -> set[tuple[str, str]]:
    """The levels that are apart, the lower first."""
    found = set()
    for word in words:
        low, _, high = word.partition(":")
        if low not in levels or high not in levels or levels.index(low) >= levels.index(high):
            raise Fault(f"--apart LOW:HIGH names two of the levels, the lower first: {word}", 2)
        found.add((low, high))
    return found


def told(levels: Levels, faults: list[str]) -> str:
    """The first faults, and what to say where they are none."""
    some = "; ".join(faults[:MOST_TOLD]) + (f"; and {len(faults) - MOST_TOLD} more" if len(faults) > MOST_TOLD else "")
    if not levels.mixed:
        return some
    those = ", ".join(f"{high} isn't above {low}" for low, high in levels.mixed)
    return f"{some}. If {those}, say {' '.join(f'--apart {low}:{high}' for low, high in levels.mixed)}"


def main(words: list[str]) -> None:
    chosen = parser().parse_args(words)
    for level in chosen.levels:
        if not NAME.fullmatch(level) or level in ("true", "false", "one", "all", "All"):
            raise Fault(f"a level has a name of letters and digits, as a category has: {level}", 2)
    if len(set(chosen.levels)) < len(chosen.levels):
        raise Fault("each level is named once", 2)
    apart = apart_in(chosen.apart, chosen.levels)
    rows = table_in(chosen.table, chosen.levels + ([chosen.facts] if chosen.facts else []))
    levels = Levels(rows, chosen.levels, apart)
    faults, found = levels.faults, instance_rows(levels)
    if chosen.facts:
        found, more = fact_rows(rows, chosen.levels[0], chosen.facts)
        faults = [*faults, *more]
    if faults:
        raise Fault(f"{chosen.table}: {told(levels, faults)}", 1)
    program.write_out(asking.csv_text(found))
