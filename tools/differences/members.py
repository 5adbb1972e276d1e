"""`breaks` against `rollup`, member by member: each fact has a digit of its own in all sums.

The fact at the k-th lowest member is 16^k. So in a target's view, made from the facts, a digit of 1 says that the member reaches it;
and in the total of the sources' views, taken up to the target, the digit says by how many sources it does. `answer` refuses to
take such views up, since the totals may differ; so that is done here.
"""

from __future__ import annotations

import csv
import io
import subprocess
from collections import Counter
from collections.abc import Iterator
from pathlib import Path
from random import Random

from .drawn import Drawn, csv_text, drawn

BASE, MOST_LOWEST, MOST_SOURCES = 16, 15, 3
QUESTIONS = 6  # of an instance


def run(program: Path, folder: Path, *words: str) -> tuple[int, str]:
    done = subprocess.run([program, *words], cwd=folder, capture_output=True, check=False)
    return done.returncode, done.stdout.decode()


def view(program: Path, folder: Path, category: str) -> dict[str, int]:
    """The sums of the category's members."""
    status, text = run(program, folder, "rollup", "S", "I", "F", category)
    if status != 0:
        raise ValueError(f"rollup of {category} ends with {status}: {text.strip()}")
    return {row[0]: int(row[2]) for row in list(csv.reader(io.StringIO(text, newline="")))[1:]}


def wanted(found: Drawn, views: dict[str, dict[str, int]], target: str, sources: list[str]) -> tuple[int, str]:
    """What `breaks` prints, and its status, by the views."""
    taken_up: Counter = Counter()
    for source in sources:
        for member, sum in views[source].items():
            if above := found.up(member, target):
                taken_up[above] += sum
    rows = []
    for place, member in enumerate(found.lowest):
        for above, sum in views[target].items():
            direct, ways = (each // BASE**place % BASE for each in (sum, taken_up[above]))
            if direct > 1 or (direct == 0 and ways > 0):
                raise ValueError(f"{member} reaches {above} {direct} times, and by {ways} sources")
            if direct == 1 and ways != 1:
                rows.append([member, above, str(ways)])
    return (1, "no\n" + csv_text([["member", "target", "ways"], *rows])) if rows else (0, "yes\n")


def faults(program: Path, room: Path, seed: int) -> Iterator[str]:
    """The faults of one instance."""
    rng, folder = Random(seed), room / str(seed)
    found = drawn(rng, MOST_LOWEST)
    folder.mkdir()
    (folder / "S").write_text(found.schema_text(), encoding="utf-8")
    (folder / "I").write_text(found.instance_text(), encoding="utf-8", newline="")
    facts = [[member, str(BASE**place)] for place, member in enumerate(found.lowest)]
    rng.shuffle(facts)
    (folder / "F").write_text(csv_text([["member", "value"], *facts]), encoding="utf-8", newline="")
    if (said := run(program, folder, "check", "S", "I")) != (0, f"legal {len(found.members)}\n"):
        yield f"instance {seed}: check ends with {said}"
        return
    views = {category: view(program, folder, category) for category in found.categories}
    for _ in range(QUESTIONS):
        target = rng.choice(found.categories)
        sources = rng.sample(found.categories, rng.randint(0, min(MOST_SOURCES, len(found.categories))))
        given, expected = run(program, folder, "breaks", "S", "I", target, *sources), wanted(found, views, target, sources)
        if given != expected:
            yield f"instance {seed}: breaks of {' '.join([target, *sources])}: {given}, and not {expected}"
