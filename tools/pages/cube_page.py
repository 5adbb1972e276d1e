"""The page of a cube: what is enough for totals of several dimensions at once, its schemas, and counterexamples."""

from __future__ import annotations

import xml.etree.ElementTree as ET
from typing import Callable, Iterator, Sequence

from . import pictures
from .cubes import MOST_TARGETS, Cube, Example, product_of
from .enough import MOST, Enough
from .markup import Markup, el, many, picture
from .page import Page, listed, named, whole
from .pictures import counted

MOST_OPEN = 2  # counterexamples that aren't folded
MOST_DRAWN = 12  # counterexamples that are drawn
MOST_LISTS = 8  # lists of a target


def lists_of(found: Enough) -> Markup | str:
    """The lists that are enough for a target, and what isn't known of them."""
    if found.lists == [()]:
        return "no fact can reach it"
    items = [many(" or " if place else "", el("span", " + ".join(some), class_="list")) for place, some in enumerate(found.lists[:MOST_LISTS])]
    more = len(found.lists) - len(items)
    notes = [f"and {counted(more, 'more list')}"] if more else []
    if not found.has_all:
        notes.append(f"there may be more: of the tuples below it the {len(found.sources):,} nearest were looked at")
    elif not found.is_whole:
        notes.append("there may be more: the search didn't end in the time of this page")
    elif not items:
        notes.append(f"no list of up to {MOST} other sources")
    return many(items, [el("small", f" ({note})") for note in notes])


class CubePage:
    """Puts the page together; `draw` draws many pictures at once, and gives None for those that time doesn't allow."""

    def __init__(self, cube: Cube, draw: Callable[[Sequence[pictures.Picture]], Sequence[ET.Element | None]]):
        self.cube, self.shown = cube, cube.shown()
        wanted = dict(self.wanted())
        drawn = zip(wanted, draw(list(wanted.values())))
        self.drawn = {key: picture(svg, number) for number, (key, svg) in enumerate(drawn, 1) if svg is not None}

    def wanted(self) -> Iterator[tuple[tuple[str, int, int], pictures.Picture]]:
        """Each picture of the page with its key."""
        for number, (schema, name) in enumerate(zip(self.cube.schemas, self.cube.names), 1):
            yield ("schema", number, 0), pictures.of_schema(schema, f"Schema {number}: {name}")
        for number, (target, sources, example) in enumerate(self.shown[:MOST_DRAWN], 1):
            parts = [source.split(",") for source in sources]
            for place, way in enumerate(example.ways, 1):
                name = f"Counterexample {number}, dimension {place}: {target} from {listed(sources)}"
                yield ("no", number, place), pictures.of_cube_way(way, [part[place - 1] for part in parts], name)

    def html(self) -> str:
        answers = self.cube.answers.values()
        no = sum(1 for example in answers if example is not None)
        summary = el("p", f"{counted(len(self.cube.schemas), 'dimension')}: {', '.join(self.cube.names)}. Asked whether the totals of a tuple "
                          f"of categories can be taken from the views of others, the program answered {counted(len(answers), 'question')}: "
                          f"{len(answers) - no:,} yes, {no:,} no.")
        sections = [
            ("enough", "What is enough", self.enough()),
            ("schemas", "Dimensions", self.schemas()),
            ("counterexamples", "Counterexamples", self.counterexamples()),
        ]
        return whole("Report on the cube of " + " and ".join(self.cube.names), summary, sections)

    def enough(self) -> Markup:
        cube = self.cube
        intro = el("p", "The totals by a target can be taken from the views of any one of its lists, for all facts, on all instances that "
                        "the schemas allow. A target and a source are a category of each dimension, joined by commas. These are the "
                        f"least lists of up to {MOST} sources: leave one out of a list, and facts may be lost. No fact at all can stand "
                        "in a dimension whose bottom categories can't have a member: ask ", el("code", "olap audit"), " of each schema first.")
        known = {target: found for target, found in cube.enough.items() if found.lists or found.is_whole}
        late = [target for target in cube.targets if target not in known]
        head = el("thead", el("tr", el("th", "totals by", scope="col"), el("th", "can be taken from", scope="col")))
        rows = [el("tr", el("th", target, scope="row"), el("td", lists_of(known[target]))) for target in cube.targets if target in known]
        table = el("table", head, el("tbody", Markup("\n".join(rows))), class_="text")
        group = el("div", table, class_="scroll", tabindex="0", role="group", aria_label="What is enough for each target")
        notes = [f"Of {named(late, 'target', 'targets')} no list was found in the time of this page."] if late else []
        more = product_of(cube.parts) - len(cube.targets)
        notes += [f"{counted(more, 'more target')} beyond the {MOST_TARGETS} nearest to the top weren't asked."] if more else []
        return many(intro, group if rows else "", [el("p", note) for note in notes])

    def figure(self, key: tuple[str, int, int], caption: str) -> Markup:
        if key not in self.drawn:
            return el("p", f"{caption}: this picture wasn't drawn in the time of this page.")
        svg = el("div", self.drawn[key], class_="scroll", tabindex="0", role="group", aria_label=caption)
        return el("figure", svg, el("figcaption", caption))

    def schemas(self) -> Markup:
        figures = [self.figure(("schema", number, 0), f"Dimension {number}: {name}") for number, name in enumerate(self.cube.names, 1)]
        return many(el("p", "Categories and edges, from child to parent, and constraints as notes. ", el("code", "tools/report SCHEMA"),
                       " makes a page of each."), el("div", figures, class_="row"))

    def counterexamples(self) -> Markup:
        if not self.shown:
            return el("p", "None: no answer for a list of sources was no.")
        intro = el("p", "Of each target one list of sources that isn't enough, such as all tuples of the categories that lie directly below it: "
                        "one fact, and its ways up in each dimension. A source has the fact only if it has it in every dimension; the totals "
                        "are right if just one source has it.")
        return many(intro, [self.counterexample(number, *each) for number, each in enumerate(self.shown, 1)])

    def counterexample(self, number: int, target: str, sources: tuple[str, ...], example: Example) -> Markup:
        fate = "lost" if example.views is None else f"{example.views}\u00d7"
        has = {True: "has the fact", False: "doesn't"}
        told = "; ".join(f"source {place}, {source}, {has[example.sees(source)]}" for place, source in enumerate(sources, 1))
        figures = [self.figure(("no", number, place), f"Dimension {place}: {name}") for place, name in enumerate(self.cube.names, 1)]
        return el(
            "details",
            el("summary", f"{target} from {listed(sources)}: {fate}"),
            el("p", f"{told[0].upper()}{told[1:]}."),
            Page.lines_pre(example.lines),
            el("div", figures, class_="row"),
            id=f"no-{number}",
            open="open" if number <= MOST_OPEN else None,
        )
