"""Each picture of the examples is well-formed, loads nothing, and shows what the program said."""

import csv
import itertools
import tempfile
import xml.etree.ElementTree as ET
from pathlib import Path
from typing import Iterator

from .common import (EXAMPLES, categories_of, differs_from_counterexample, differs_from_frozen, edges_of, olap, picture_faults, picture_of,
                     tool)

MOST = 8  # counterexamples of one schema


def drawn(*words: str) -> tuple[ET.Element, list[str]]:
    done = tool("draw", *words)
    if done.returncode != 0:
        return ET.Element("svg"), [f"status {done.returncode}: {done.stderr.strip()}"]
    svg = ET.fromstring(done.stdout)
    return svg, picture_faults(svg)


def schema_faults(schema: str) -> Iterator[str]:
    svg, wrong = drawn("schema", schema)
    yield from wrong
    picture, edges = picture_of(svg), edges_of(Path(schema))
    categories = [told.split()[1].rstrip(":") for told in picture.nodes if told.startswith("category ")]
    if sorted(categories) != sorted(categories_of(Path(schema))):
        yield f"its categories are {categories}"
    bottoms = {told.split()[1].rstrip(":") for told, text in picture.nodes.items() if "facts stand here" in text}
    if bottoms != {child for child, _ in edges} - {parent for _, parent in edges}:
        yield f"facts stand at {bottoms}"
    if sorted(edge for edge in picture.edges if edge.startswith("edge ")) != sorted(f"edge {c} {p}" for c, p in edges):
        yield f"its edges are {picture.edges}"
    said = [line.split(" ", 1)[1] for line in (EXAMPLES / schema).read_text().splitlines() if line.startswith("constraint ")]
    notes = " ".join(told for told in picture.nodes if told.startswith("constraints of "))
    for number, constraint in enumerate(said, 1):
        if f"{number}: {constraint.split(': ', 1)[1]}" not in notes:
            yield f"it has no note of constraint {number}"


def frozen_faults(schema: str) -> Iterator[str]:
    edges = edges_of(Path(schema))
    for category in categories_of(Path(schema)):
        lines = olap("frozen", schema, category)[1].splitlines()[:-1]
        with tempfile.TemporaryDirectory() as folder:
            done = tool("draw", "frozen", schema, category, "--folder", folder)
            files = sorted(Path(folder).iterdir(), key=lambda file: int(file.stem))
            if done.returncode != 0 or len(files) != len(lines):
                yield f"{category}: {len(files)} pictures for {len(lines)} lines, status {done.returncode}"
                continue
            for file, line in zip(files, lines):
                svg = ET.fromstring(file.read_text())
                wrong = differs_from_frozen(picture_of(svg), line, edges)
                yield from (f"{category}: {each}" for each in [*picture_faults(svg), *([wrong] if wrong else [])])


def counterexample_faults(schema: str) -> Iterator[str]:
    categories, edges = categories_of(Path(schema)), edges_of(Path(schema))
    lists = [(), *itertools.combinations(categories, 2), tuple(categories)]
    asked = [(target, sources) for target in categories for sources in lists]
    for target, sources in asked[:: max(1, len(asked) // MOST)]:
        status, text = olap("summarizable", schema, target, *sources)
        done = tool("draw", "summarizable", schema, target, *sources)
        if done.returncode != (0 if status == 1 else 1) or (status == 0 and done.stdout):
            yield f"{target} {' '.join(sources)}: status {done.returncode}"
        elif status == 1:
            svg = ET.fromstring(done.stdout)
            wrong = differs_from_counterexample(picture_of(svg), text, edges)
            yield from (f"{target} {' '.join(sources)}: {each}" for each in [*picture_faults(svg), *([wrong] if wrong else [])])


def instance_faults(schema: str, instance: str) -> Iterator[str]:
    svg, wrong = drawn("instance", schema, instance)
    yield from wrong
    picture = picture_of(svg)
    rows = list(csv.DictReader((EXAMPLES / instance).read_text().splitlines()))
    starts = [f"{row['category']} {row['id']}" for row in rows]
    if len(picture.nodes) != len(rows) + 1 or not all(any(told.startswith(start) for told in picture.nodes) for start in starts):
        yield f"its members are {list(picture.nodes)}"
    if sorted(picture.edges) != sorted(f"{row['id']} to {parent}" for row in rows for parent in row["parents"].split(";")):
        yield f"its edges are {picture.edges}"
    bad = sorted(title for title in picture.bad if " to " in title)
    if bad != (["s1 to to", "s1 to w"] if "broken" in instance else []):
        yield f"its faults are {bad}"
    if olap("check", schema, instance)[1].strip() not in picture.name:
        yield f"its name is {picture.name}"


def implies_faults() -> Iterator[str]:
    schema, words = "location/schema.txt", ("Store", "Store.Region")
    svg, wrong = drawn("implies", schema, *words)
    line = olap("implies", schema, *words)[1].splitlines()[1]
    told = differs_from_frozen(picture_of(svg), line, edges_of(Path(schema)))
    yield from [*wrong, *([told] if told else [])]


def above_faults() -> Iterator[str]:
    """Of a member with several parents, all that is above it is drawn, and nothing else."""
    schema, instance = "cubes/calendar.txt", "cubes/days.csv"
    with (EXAMPLES / instance).open(newline="") as file:
        rows = {row["id"]: row["parents"].split(";") for row in csv.DictReader(file)}
    start = next(id for id, parents in rows.items() if len(parents) > 1)
    wanted, left = set(), [start]
    while left:
        one = left.pop()
        wanted.add(one)
        left += [parent for parent in rows.get(one, ()) if parent not in wanted]
    svg, wrong = drawn("instance", schema, instance, f"--above={start}")
    yield from wrong
    found = {"all" if told == "all" else told.split(" ", 1)[1].split(", named ")[0] for told in picture_of(svg).nodes}
    if found != wanted:
        yield f"above {start} it draws {sorted(found)}, and there are {sorted(wanted)}"


def faults() -> Iterator[str]:
    for file in sorted(EXAMPLES.glob("*/schema.txt")):
        schema = str(file.relative_to(EXAMPLES))
        for check in (schema_faults, frozen_faults, counterexample_faults):
            yield from (f"draw {schema}: {wrong}" for wrong in check(schema))
    for instance in ("location/instance.csv", "broken/instance.csv"):
        yield from (f"draw {instance}: {wrong}" for wrong in instance_faults("location/schema.txt", instance))
    yield from (f"draw implies: {wrong}" for wrong in implies_faults())
    yield from (f"draw instance: {wrong}" for wrong in above_faults())
