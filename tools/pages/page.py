"""The page of a schema: one HTML text with its style and pictures, no script, and nothing that is loaded."""

from __future__ import annotations

import xml.etree.ElementTree as ET
from collections import defaultdict
from dataclasses import dataclass, field
from functools import cached_property
from typing import Callable, Iterator, Sequence

from . import pictures, sql, texts
from .enough import MOST, Enough
from .markup import Markup, el, many, picture
from .pictures import counted
from .questions import Facts, Ways

COLUMNS = 8  # targets of one table
MOST_LINES = 50  # frozen lines of a category
MOST_DRAWN, MOST_DRAWN_LARGE, LARGE = 6, 1, 20  # pictures of a category's ways; of a schema with more categories than LARGE
MOST_WAYS = 30_000  # members and edges in the pictures of all ways
MOST_OPEN = 6  # counterexamples that aren't folded
MOST_SHOWN = 500  # counterexamples of a page
MOST_ENOUGH = 8  # lists of a target that stand in the first table
MOST_REASONS = 60  # lines of a certificate
MOST_SQL = 200  # lists of the first table of which the SQL stands there
MOST_NAMED = 12  # categories of which nothing is known that are told by name

STYLE = """
:root { color-scheme: light dark; --page: #fff; --text: #1a1c20; --soft: #555d6b; --rule: #c9d0da; --band: #f3f5f9; --link: #0b4fa3;
  --yes: #1d5f2a; --no: #9b1417; --none: #f0f1f4; }
@media (prefers-color-scheme: dark) { :root { --page: #14171c; --text: #e8eaee; --soft: #a9b2c0; --rule: #3b4350; --band: #1d222a;
  --link: #8ab8ff; --yes: #84d191; --no: #ff9a9c; --none: #20242b; } }
* { box-sizing: border-box; }
html { scroll-padding-top: 1rem; }
body { margin: 0 auto; max-width: 72rem; padding: 1rem; background: var(--page); color: var(--text);
  font: 1rem/1.5 system-ui, "DejaVu Sans", Verdana, Arial, sans-serif; overflow-wrap: anywhere; }
h1 { font-size: 1.7rem; line-height: 1.25; margin: .5rem 0; } h2 { font-size: 1.35rem; margin: 2.2rem 0 .6rem; } h3 { font-size: 1.1rem; }
a { color: var(--link); } a:focus-visible, summary:focus-visible, [tabindex]:focus-visible { outline: 3px solid var(--link);
  outline-offset: 2px; }
:target { outline: 3px solid var(--link); outline-offset: 2px; } details > p:target { scroll-margin-top: 3.5rem; }
.skip { position: absolute; left: -100rem; } .skip:focus { left: 1rem; top: .5rem; background: var(--page); padding: .5rem 1rem;
  z-index: 2; }
.printed { display: none; }
.hidden { position: absolute; width: 1px; height: 1px; overflow: hidden; clip-path: inset(50%); white-space: nowrap; }
code, pre, .lines { font-family: ui-monospace, "DejaVu Sans Mono", Menlo, Consolas, monospace; font-size: .875rem; unicode-bidi: isolate; }
pre { white-space: pre-wrap; background: var(--band); padding: .5rem .75rem; margin: .5rem 0; }
nav ul { display: flex; flex-wrap: wrap; gap: .25rem 1.25rem; padding: 0; list-style: none; }
nav a { display: inline-block; padding: .35rem 0; }
.soft, figcaption, small { color: var(--soft); }
figure { margin: .75rem 0; } .scroll > svg { width: 100%; height: auto; display: block; }
.scroll { overflow-x: auto; max-width: 100%; position: relative; padding: 2px; }
.row { display: flex; flex-wrap: wrap; gap: 1rem 2rem; align-items: flex-start; }
.row figure { flex: 0 1 auto; max-width: 100%; min-width: 0; } .row figcaption { max-width: 32rem; }
table { border-collapse: separate; border-spacing: 0; margin: .5rem 0 1.25rem; overflow-wrap: normal; }
caption { text-align: left; font-weight: 600; padding: .25rem 0; }
th, td { border: 0 solid var(--rule); border-width: 0 1px 1px 0; padding: .3rem .5rem; text-align: left; vertical-align: top; }
thead th { border-top-width: 1px; } tr > :first-child { border-left-width: 1px; }
th { background: var(--band); font-weight: 600; max-width: 11rem; overflow-wrap: break-word; min-width: 3.5rem; }
tbody th { position: sticky; left: 0; min-width: 6rem; } thead th:first-child { position: sticky; left: 0; z-index: 1; }
td details { margin: .3rem 0; font-weight: 400; white-space: normal; } td summary { padding: .2rem 0; }
td { white-space: nowrap; } td.yes { color: var(--yes); font-weight: 600; } td a { display: inline-block;
  padding: .1rem .2rem; margin: -.1rem -.2rem; } td.no a { color: var(--no); } td.yes a { color: var(--yes); }
td.other { background: var(--none); color: var(--soft); } table.text td { white-space: normal; }
table.text thead th { max-width: none; } .list { font-weight: 600; }
.alarm { color: var(--no); border: 2px solid var(--no); border-radius: .4rem; padding: .6rem .8rem; font-weight: 600; }
.legend { list-style: none; padding: 0; margin: .25rem 0; } .legend li { margin: .25rem 0; display: flex; align-items: center; gap: .6rem; }
.sample { flex: none; width: 2.6rem; border-top: 2px solid var(--text); } .sample.sometimes { border-top-style: dashed; }
.sample.idle { border-top-style: dotted; } .sample.unknown { border: 0; height: 2px; print-color-adjust: exact;
  background: repeating-linear-gradient(90deg, var(--text) 0 .5rem, transparent 0 .7rem, var(--text) 0 .8rem, transparent 0 1rem); }
.side { flex: 1 1 18rem; min-width: 0; }
details { border: 1px solid var(--rule); border-radius: .4rem; margin: .6rem 0; padding: 0 .75rem; }
summary { cursor: pointer; padding: .5rem 0; font-weight: 600; }
.lines { padding-left: 3.5rem; margin: .5rem 0; } .lines li { padding-left: .5rem; border-left: 1px solid var(--rule); min-height: 1.5em;
  white-space: pre-wrap; } .lines li::marker { color: var(--soft); } .lines code { font-size: inherit; }
footer { border-top: 1px solid var(--rule); margin-top: 2.5rem; padding-top: .75rem; color: var(--soft); }
@media print {
  @page { margin: 14mm; }
  :root { --page: #fff; --text: #000; --soft: #444; --rule: #999; --band: #f3f3f3; --link: #003f8f; --yes: #14491b; --no: #8c0f12; }
  body { max-width: none; padding: 0; font-size: 10pt; } nav, .skip, .back { display: none; } .scroll { overflow: visible; }
  figure, .scroll, details { break-inside: avoid; } .scroll:has(table) { break-inside: auto; } tr { break-inside: avoid; }
  h2, h3, h3 + p, summary, caption { break-after: avoid; } thead { display: table-header-group; }
  tbody th, thead th:first-child { position: static; } th, td { padding: .15rem .3rem; } th { min-width: 0; } tbody th { min-width: 4rem; }
  .scroll > svg { min-width: 0 !important; max-height: 240mm; }
  .row { display: block; } details:not([open]) { display: none; }
  #counterexamples, #certificates, #frozen, #text { display: none; } .printed { display: block; }
}
"""


@dataclass
class Shown:
    """A counterexample and the lists of sources that it answers; the same sources of each see the fact, perhaps none."""

    number: int
    example: texts.Counterexample
    seeing: tuple[str, ...]
    lists: list[tuple[str, ...]] = field(default_factory=list)

    @property
    def anchor(self) -> str:
        return f"no-{self.number}"

    @property
    def drawn_for(self) -> tuple[str, ...]:
        """The sources that the picture shows."""
        return self.lists[0]


@dataclass(frozen=True)
class Places:
    """The lines of the text, from 1, where things are declared."""

    categories: dict[str, int]
    edges: dict[tuple[str, str], int]
    constraints: list[int]


def places_of(text: str) -> Places:
    categories, edges, constraints = {}, {}, []
    for number, line in enumerate(text.split("\n"), 1):
        words = line.split()
        if words[:1] == ["category"]:
            categories[words[1]] = number
        elif words[:1] == ["edge"]:
            edges[words[1], words[2]] = number
        elif words[:1] == ["constraint"]:
            constraints.append(number)
    return Places(categories, edges, constraints)


def grouped(facts: Facts) -> tuple[list[Shown], dict[tuple[str, tuple[str, ...]], Shown]]:
    """The different counterexamples in the order of targets, and the one of each question that has one; the first of them stand on
    the page."""
    shown: dict[tuple, Shown] = {}
    of: dict[tuple[str, tuple[str, ...]], Shown] = {}
    for target in facts.targets:
        for sources in [*facts.singles, *facts.pairs]:
            example = facts.answers.get((target, sources))
            if example is not None:
                seeing = tuple(one for one in sources if example.sees(one))
                key = (target, example.frozen.line, example.root, example.views, seeing)
                shown.setdefault(key, Shown(len(shown) + 1, example, seeing)).lists.append(sources)
                of[target, sources] = shown[key]
    return list(shown.values()), of


def joined(ways: Sequence[texts.Frozen]) -> list[tuple[texts.Frozen, int]]:
    """The first of those that differ in names alone, and how many others there are."""
    groups: dict[tuple, list[texts.Frozen]] = {}
    for way in ways:
        groups.setdefault((way.edges, tuple(way.names)), []).append(way)
    return [(some[0], len(some) - 1) for some in groups.values()]


def listing(words: Sequence[str]) -> str:
    return ", ".join(words)


def named(categories: Sequence[str], one: str, more: str) -> str:
    return listing(categories) if len(categories) <= MOST_NAMED else counted(len(categories), one, more)


def listed(sources: Sequence[str]) -> str:
    return " and ".join(sources)


def views_of(example: texts.Counterexample) -> str:
    return "none" if example.views is None else str(example.views)


def fate(example: texts.Counterexample) -> str:
    return "lost" if example.views is None else f"{example.views}\u00d7"


def whole(title: str, summary: Markup, sections: Sequence[tuple[str, str, Markup]]) -> str:
    """A page of sections, each with an anchor and a name."""
    head = el(
        "head",
        el("meta", charset="utf-8"),
        el("meta", http_equiv="Content-Security-Policy", content="default-src 'none'; style-src 'unsafe-inline'"),
        el("meta", name="viewport", content="width=device-width, initial-scale=1"),
        el("meta", name="color-scheme", content="light dark"),
        el("title", title),
        el("style", Markup(STYLE + pictures.STYLE)),
    )
    links = [el("li", el("a", name, href=f"#{anchor}")) for anchor, name, _ in sections]
    body = el(
        "body",
        el("a", "To the content", class_="skip", href="#content"),
        el("header", el("h1", title), summary, el("nav", el("ul", links), aria_label="Sections")),
        el("main", [section(*each) for each in sections], id="content", tabindex="-1"),
        el("footer", el("p", "Printed are the first sections alone; counterexamples, certificates and what lies below are on the page.",
                        class_="printed"),
           el("p", "Each answer on this page is one that the program olap gave. The program is proved; the page and its "
                             "pictures are not.")),
    )
    return "<!doctype html>\n" + el("html", head, body, lang="en") + "\n"


def section(anchor: str, name: str, content: Markup) -> Markup:
    heading = f"h-{anchor}"
    return many(el("section", el("h2", name, id=heading), content, id=anchor, aria_labelledby=heading), Markup("\n"))


class Page:
    """Puts the page together; `draw` draws many pictures at once, and gives None for those that time doesn't allow."""

    def __init__(self, facts: Facts, name: str, draw: Callable[[Sequence[pictures.Picture]], Sequence[ET.Element | None]]):
        self.facts, self.name = facts, name
        self.places = places_of(facts.text)
        every, self.shown_of = grouped(facts)
        self.shown, self.hidden = every[:MOST_SHOWN], every[MOST_SHOWN:]
        self.certified = {key: f"yes-{number}" for number, key in enumerate(facts.certificates, 1)}
        large = len(facts.schema.categories) > LARGE
        self.most_drawn = MOST_DRAWN_LARGE if large else MOST_DRAWN
        wanted = dict(self.wanted())
        drawn = zip(wanted, draw(list(wanted.values())))
        self.drawn = {key: picture(svg, number) for number, (key, svg) in enumerate(drawn, 1) if svg is not None}

    def wanted(self) -> Iterator[tuple[tuple, pictures.Picture]]:
        """Each picture of the page with its key."""
        schema = self.facts.schema
        yield ("schema",), pictures.of_schema(schema, f"Schema {self.name}", self.facts.taken())
        room = MOST_WAYS
        for category in self.order:
            for number, (frozen, _) in enumerate(self.drawn_ways(self.facts.ways[category]), 1):
                room -= len(frozen.names) + len(frozen.edges)
                name = f"Frozen dimension {number} of {category}"
                if room >= 0:
                    yield ("frozen", category, number), pictures.of_frozen(frozen, category, name)
        for shown in self.shown:
            name = f"Counterexample {shown.number}: {shown.example.target} from {listed(shown.drawn_for)}"
            yield ("no", shown.number), pictures.of_counterexample(shown.example, shown.drawn_for, name)

    @property
    def order(self) -> list[str]:
        """The bottom categories, and then the others that are declared."""
        schema = self.facts.schema
        return [*schema.bottoms, *(category for category in schema.declared if category not in schema.bottoms)]

    def drawn_ways(self, ways: Ways) -> list[tuple[texts.Frozen, int]]:
        known = ways.listed if ways.listed is not None else (ways.least,) if ways.least else ()
        return joined(known)[: self.most_drawn]

    def html(self) -> str:
        title = f"Report on the schema {self.name}"
        can_have_facts = len(self.facts.barren) < len(self.facts.schema.bottoms)
        sections = [
            *([("enough", "What is enough", self.enough())] if can_have_facts else []),
            ("picture", "Picture", self.picture()),
            ("audit", "Audit", self.audit()),
            *([("table", "Targets and sources", self.tables())] if can_have_facts else []),
            *([("counterexamples", "Counterexamples", self.counterexamples())] if can_have_facts else []),
            *([("certificates", "Certificates", self.certificates())] if can_have_facts else []),
            ("frozen", "All ways up", self.frozen()),
            ("text", "Text", self.text()),
        ]
        return whole(title, many(self.summary(), self.alarm()), sections)

    def summary(self) -> Markup:
        schema, answers = self.facts.schema, self.facts.answers.values()
        no = sum(1 for example in answers if example is not None)
        return el(
            "p",
            f"{counted(len(schema.categories), 'category', 'categories')} (All among them), {counted(len(schema.edges), 'edge')}, "
            f"{counted(len(schema.constraints), 'constraint')}. Asked whether a target's totals can be taken from sources' views, the "
            f"program answered {counted(len(answers), 'question')}: {len(answers) - no:,} yes, {no:,} no.",
        )

    def alarm(self) -> Markup | str:
        """A red line where no fact can stand in a bottom category."""
        barren = self.facts.barren
        if not barren:
            return ""
        rest = ("so there can be no fact at all, and every question would be answered by yes: this page has no tables"
                if len(barren) == len(self.facts.schema.bottoms) else "so a yes on this page says nothing about facts there")
        return el("p", f"No legal instance has a member of {', '.join(barren)}, {rest}. The schema contradicts itself there: see the audit.",
                  class_="alarm")

    # The sections.

    def enough(self) -> Markup:
        facts = self.facts
        intro = el("p", "The totals by a target can be taken from the views of any one of its lists, for all facts, on every instance that "
                        "the schema allows; whether yours is one, ", el("code", "olap check"), " says. These are the least lists of up "
                        f"to {MOST} sources: leave one out of a list, and facts may be lost. ", self.about_sql())
        head = el("thead", el("tr", el("th", "totals by", scope="col"), el("th", "can be taken from", scope="col")))
        known = {target: found for target, found in facts.enough.items() if found.lists or found.is_whole}
        late = [target for target in facts.targets if target not in known]
        rows = [el("tr", el("th", target, scope="row"), el("td", self.enough_for(known[target])))
                for target in facts.targets if target in known]
        told = el("p", f"Of {named(late, 'target', 'targets')} no list was found in the time of this page: ", el("code", "tools/least SCHEMA TARGET"),
                  " looks for them.") if late else ""
        table = el("table", head, el("tbody", Markup("\n".join(rows))), class_="text")
        group = el("div", table, class_="scroll", tabindex="0", role="group", aria_label="What is enough for each target")
        return many(many(intro, group) if rows else "", told)

    def enough_for(self, found: Enough) -> Markup | str:
        if found.lists == [()]:
            return "no fact can reach it"
        items = [el("span", self.to_certificate(found.target, sources, " + ".join(sources)), class_="list")
                 for sources in found.lists[:MOST_ENOUGH]]
        more = len(found.lists) - len(items)
        notes = [f"and {counted(more, 'more list')}: tools/least lists them"] if more else []
        if not found.is_whole:
            notes.append("there may be more: the search didn't end in the time of this page")
        elif not items:
            notes.append(f"no list of up to {MOST} other sources")
        return many([many(" or " if i else "", item) for i, item in enumerate(items)], [el("small", f" ({note})") for note in notes],
                    self.statements(found))

    @cached_property
    def has_sql(self) -> bool:
        """Are there so few lists that the SQL of each stands on the page?"""
        return 0 < len(self.facts.enough_lists) <= MOST_SQL

    def about_sql(self) -> Markup:
        if not self.has_sql:
            return many(el("code", "olap-tools sql SCHEMA TARGET SOURCE.."), " writes the SQL for a list.")
        return many("The SQL is for SQLite and PostgreSQL, over ", el("code", "member(id, category)"), ", ", el("code", "lies_in(child, parent)"),
                    " and a view ", el("code", "v_SOURCE(member, count, sum, least, greatest)"), " of each source.")

    def statements(self, found: Enough) -> Markup | str:
        """The SQL of each list that stands above it."""
        if not self.has_sql or not found.lists or found.lists == [()]:
            return ""
        texts_of = [f"-- {found.target} from {' '.join(some)}\n{sql.statement(found.target, some)}" for some in found.lists[:MOST_ENOUGH]]
        return el("details", el("summary", "SQL"), [el("pre", Markup("\n".join(many(line) for line in text.splitlines()))) for text in texts_of])

    def figure(self, key: tuple, caption: object, label: str) -> Markup:
        if key not in self.drawn:
            return el("p", "This page has no time or room for this picture; ", el("code", "tools/draw"), " draws it alone.")
        svg = el("div", self.drawn[key], class_="scroll", tabindex="0", role="group", aria_label=label)
        return el("figure", svg, el("figcaption", caption))

    def picture(self) -> Markup:
        facts = self.facts
        if not facts.schema.constraints:
            notes = "There are no constraints."
        elif len(facts.schema.constraints) > pictures.MOST_NOTES:
            notes = "A note has the numbers of a category's constraints, which stand in full below."
        else:
            notes = "A note has a category's constraints with their numbers; long ones are cut."
        caption = f"Categories and edges, from child to parent. {notes}"
        lines = [("always", "every member of the child takes this edge"), ("sometimes", "some may not take it"),
                 ("idle", "no fact goes this way")]
        if set(facts.schema.edges) - facts.taken().keys():
            lines.append(("unknown", "no answer in the time of this page"))
        legend = el("ul", [el("li", el("span", "", class_=f"sample {kind}"), text) for kind, text in lines], class_="legend")
        items = [el("li", self.to_line(place, f"constraint {number}"), " ", el("code", f"{one.root}: {one.formula}"))
                 for number, (one, place) in enumerate(zip(facts.schema.constraints, self.places.constraints), 1)]
        constraints = el("details", el("summary", "The constraints in full"), el("ul", items)) if items else ""
        side = el("div", legend, constraints, class_="side")
        return el("div", self.figure(("schema",), caption, "Picture of the schema"), side, class_="row")

    def to_certificate(self, target: str, sources: tuple[str, ...], *text: object) -> Markup:
        """What is said, as a link where there is a certificate."""
        anchor = self.certified.get((target, sources))
        return el("a", *text, href=f"#{anchor}") if anchor else many(*text)

    def to_line(self, number: int, text: str) -> Markup:
        return el("a", text, href=f"#line-{number}")

    def audit(self) -> Markup:
        findings = self.facts.findings
        if findings is None:
            return el("p", "The audit had no answer in the time of this page: ", el("code", "olap audit SCHEMA"), " asks for it alone.")
        unused = {tuple(line.split(" ")[1:]) for line in findings if line.startswith("unused ")}
        idle = [edge for edge, kind in self.facts.taken().items() if kind == "idle" and edge not in unused]
        dead = el("p", "No fact goes by these edges, for no way up of a bottom category has them, though a member without facts may: ",
                  listing([f"{child} {parent}" for child, parent in idle]), ".") if idle else ""
        if not findings:
            return many(el("p", "No findings: each category can have a member, each constraint says something, and each edge can be used "
                                "by some member, if only by one without facts."), dead)
        return many(el("p", f"{counted(len(findings), 'finding')}."), el("ul", [el("li", self.finding(one)) for one in findings]), dead)

    def finding(self, line: str) -> Markup:
        kind, *words = line.split(" ")
        if kind == "unsatisfiable":
            place, told = self.places.categories.get(words[0]), f"no legal instance has a member of {words[0]}"
        elif kind == "unused":
            place, told = self.places.edges[words[0], words[1]], f"in no legal instance a member of {words[0]} has a parent in {words[1]}"
        else:
            one = self.facts.schema.constraints[int(words[0]) - 1]
            place = self.places.constraints[int(words[0]) - 1]
            told = many("it is met by every legal instance of the schema without it: ", el("code", f"{one.root}: {one.formula}"))
        return many(self.to_line(place, line) if place else line, ": ", told)

    def frozen(self) -> Markup:
        intro = el("p", "A frozen dimension of a category is a legal instance in which it has a member, each category has at most one, and "
                        "that member reaches every other: one of all the ways up. The digits are the schema's edges, and ", el("code", "nk"),
                   " is any name that the schema doesn't mention. Ways that differ in names alone are told once.")
        ways = self.facts.ways
        late = [each for each in self.order if ways[each].listed is None and ways[each].least is None and not ways[each].too_many]
        ask = el("code", "olap frozen SCHEMA CATEGORY")
        told = el("p", f"Of {named(late, 'category', 'categories')} nothing came in the time of this page: ", ask, " lists it.")
        shown = [each for each in self.order if each not in late]
        bottoms, others = ([self.ways_of(each) for each in shown if (each in self.facts.schema.bottoms) is is_bottom] for is_bottom in (True, False))
        folded = el("details", el("summary", "The ways of the other categories"), others) if others else ""
        return many(intro, bottoms, folded, told if late else "")

    def ways_of(self, category: str) -> Markup:
        ways = self.facts.ways[category]
        known = self.drawn_ways(ways)
        if ways.listed is not None:
            told = counted(len(ways.listed), "frozen dimension") if ways.listed else "None: no legal instance has a member of it"
            groups = joined(ways.listed)
            told += f" in {counted(len(groups), 'way')}" if len(groups) < len(ways.listed) else ""
            told += f"; the first {len(known)} drawn" if 0 < len(known) < len(groups) else ""
        else:
            told = "More than the program lists" if ways.too_many else "The list didn't come in the time of this page"
            told += "; the least is drawn" if known else ""
        groups = joined(ways.listed) if ways.listed is not None else known
        lines = [frozen.line + (f"   and {counted(others, 'other list', 'other lists')} of names" if others else "") for frozen, others in groups]
        more = [el("p", f"{len(lines) - MOST_LINES:,} more lines: ", el("code", f"olap frozen SCHEMA {category}"), " lists them.")]
        drawn = [self.figure(("frozen", category, i), f"{i} of {category}" + (f", and {others:,} with other names" if others else ""),
                             f"Frozen dimension {i} of {category}") for i, (_, others) in enumerate(known, 1)]
        return many(
            el("h3", category, id=f"ways-{category}"),
            el("p", f"{told}."),
            self.lines_pre(lines[:MOST_LINES]),
            more if len(lines) > MOST_LINES else "",
            el("div", drawn, class_="row") if drawn else "",
        )

    @staticmethod
    def lines_pre(lines: Sequence[str]) -> Markup | str:
        return el("pre", Markup("\n".join(many(line) for line in lines))) if lines else ""

    def tables(self) -> Markup:
        facts = self.facts
        intro = el(
            "p", "May the totals by the target be taken from the views of the sources, on every legal instance and for all facts? ",
            el("em", "Lost"), " is a fact that no source has, and ", el("em", "2\u00d7"), " one that two of them have; each no leads to its "
            "counterexample. Grey is what isn't asked: a source that isn't below the target adds nothing, and a target is its own view.",
        )
        questions = facts.asked(facts.singles + facts.pairs)
        asked, late = len(questions), sum(1 for question in questions if question not in facts.answers)
        notes = [el("p", el("strong", f"{counted(late, 'question')} of {asked:,} had no answer in the time of this page."), " They say ",
                    el("em", "no answer"), ", or their row isn't there; ask the program itself, or make the page with ",
                    el("code", "--seconds N"), ".")] if late else []
        return many(intro, notes, self.table_group("Single sources", facts.singles), self.pairs())

    def pairs(self) -> Markup:
        """The table of pairs, or why there is none."""
        facts, asks = self.facts, el("code", "olap summarizable SCHEMA TARGET SOURCE SOURCE")
        if facts.asks_pairs and any(question in facts.answers for question in facts.asked(facts.pairs)):
            return el("details", el("summary", "Pairs of sources"), self.table_group("", facts.pairs))
        why = "No pair had an answer in the time of this page: " if facts.asks_pairs else (
            f"Pairs weren't asked, for this schema has {counted(len(facts.schema.categories), 'category', 'categories')}: ")
        return many(el("h3", "Pairs of sources"), el("p", why, asks, " asks for one."))

    def table_group(self, name: str, lists: list[tuple[str, ...]]) -> Markup:
        """Tables of some targets each, without rows in which nothing was answered."""
        targets, answers = self.facts.targets, self.facts.answers
        columns = [targets[i : i + COLUMNS] for i in range(0, len(targets), COLUMNS)]
        asked = set(self.facts.asked(lists))
        tables = []
        for some in columns:
            rows = [sources for sources in lists if any((target, sources) in asked and (target, sources) in answers for target in some)]
            tables += [self.table(name or "Pairs of sources", rows, some, asked)] if rows else []
        return many(el("h3", name) if name else "", tables)

    def table(self, name: str, lists: list[tuple[str, ...]], targets: Sequence[str], asked: set) -> Markup:
        caption = f"{name}: targets {targets[0]} to {targets[-1]}" if len(targets) > 1 else f"{name}: target {targets[0]}"
        head = el("thead", el("tr", el("th", "from the views of", scope="col"), [el("th", target, scope="col") for target in targets]))
        other = el("td", "\u2013", class_="other")
        rows = [el("tr", el("th", listed(sources), scope="row"),
                   [self.cell(target, sources) if (target, sources) in asked else other for target in targets]) for sources in lists]
        table = el("table", el("caption", caption), head, el("tbody", Markup("\n".join(rows))))
        return el("div", table, class_="scroll", tabindex="0", role="group", aria_label=caption)

    def cell(self, target: str, sources: tuple[str, ...]) -> Markup:
        if (target, sources) not in self.facts.answers:
            return el("td", "no answer", class_="none")
        shown = self.shown_of.get((target, sources))
        if shown is None:
            about = el("span", f": certificate for {target} from {listed(sources)}", class_="hidden")
            told = ("yes", about) if (target, sources) in self.certified else ("yes",)
            return el("td", self.to_certificate(target, sources, *told), class_="yes")
        if shown.number > len(self.shown):
            return el("td", f"no, {fate(shown.example)}", class_="no")
        where = el("span", f": counterexample for {target} from {listed(sources)}", class_="hidden")
        return el("td", el("a", f"no, {fate(shown.example)}", where, href=f"#{shown.anchor}"), class_="no")

    def counterexamples(self) -> Markup:
        if not self.shown:
            return el("p", "None: no answer was no.")
        by_target = defaultdict(list)
        for shown in self.shown:
            by_target[shown.example.target].append(shown)
        folded = len(self.shown) > MOST_OPEN
        intro = el("p", f"{counted(len(self.shown), 'counterexample')}; each is the least legal instance that shows its no, with one fact. "
                        "The target is red, with what it gets instead of 1. Blue lines are the fact's ways up to it, and a red arrow is a "
                        "source that adds the fact to it; a source in a dashed box doesn't have the fact. Below it stands which sources "
                        "to add and which constraints would make it a yes, as ", el("code", "olap-tools after-no"), " says it." +
                        (" Open one to see its picture." if folded else ""))
        groups = [many(el("h3", f"Target {target}"), self.counterexamples_of(some, folded)) for target, some in by_target.items()]
        more = el("p", f"{counted(len(self.hidden), 'more counterexample')}: ", el("code", "olap summarizable SCHEMA TARGET SOURCE.."),
                  " shows the one of a question.") if self.hidden else ""
        return many(intro, groups, more)

    def counterexamples_of(self, some: Sequence[Shown], folded: bool) -> Markup:
        """Those of single sources one below another; those of pairs alone are many, so they are folded once more."""
        single = [one for one in some if not folded or min(map(len, one.lists)) == 1]
        pairs = [one for one in some if one not in single]
        more = el("details", el("summary", f"{counted(len(pairs), 'counterexample')} for pairs of sources"),
                  [self.counterexample(one, folded) for one in pairs]) if pairs else ""
        return el("div", [self.counterexample(one, folded) for one in single], more, class_="group")

    def counterexample(self, shown: Shown, folded: bool) -> Markup:
        example = shown.example
        lists = "; ".join(listed(sources) for sources in shown.lists)
        summary = f"{example.target} from {listed(shown.lists[0])}: {fate(example)}"
        summary += f" (and {counted(len(shown.lists) - 1, 'other list', 'other lists')})" if len(shown.lists) > 1 else ""
        said = [example.frozen.line, f"fact {example.root} 1", f"direct {example.target} 1", f"views {example.target} {views_of(example)}"]
        return el(
            "details",
            el("summary", summary),
            el("p", "It answers the sources: ", lists, ".", id=shown.anchor),
            self.lines_pre(said),
            self.figure(("no", shown.number), f"{listed(shown.drawn_for)}: direct 1, from the views {views_of(example)}.",
                        f"Counterexample {shown.number}"),
            self.after_no(shown),
            el("p", el("a", "Back to the tables", href="#table"), class_="back"),
            open=None if folded else "open",
        )

    def after_no(self, shown: Shown) -> Markup:
        """What to do, as far as it came in the time of this page."""
        words = el("code", " ".join(["olap-tools after-no SCHEMA [INSTANCE [FACTS]]", shown.example.target, *shown.drawn_for]))
        said = self.facts.after.get((shown.example.target, shown.drawn_for))
        if said is None:
            return el("p", "What to do after this no, ", words, " says.")
        return many(el("p", f"After the no of {listed(shown.drawn_for)}:"), self.lines_pre(said))

    def certificates(self) -> Markup:
        known = self.facts.certificates
        late = len(self.facts.yes) - len(known)
        words = el("code", "olap prove-short SCHEMA TARGET SOURCE..")
        told = el("p", f"Of {counted(late, 'yes', 'yeses')} none stands here: ", words, " writes one.") if late else ""
        if not known:
            return told or el("p", "None: no answer was yes.")
        intro = el("p", "Why each yes is right, line by line: in each, a case is split by what may be, or closed for a reason. ",
                   el("code", "docs/CERTIFICATES.md"), " says what the lines mean. Whoever doubts one puts it into a file and "
                   "asks ", el("code", "olap verify-short SCHEMA FILE TARGET SOURCE.."), ", or ", el("code", "verify"),
                   " of one that begins with ", el("code", "certificate 1"), ", or without the program ",
                   el("code", "tools/check-certificate SCHEMA FILE TARGET SOURCE.."), ".")
        by_target = defaultdict(list)
        for target, sources in known:
            by_target[target].append(sources)
        groups = [many(el("h3", f"Target {target}"), el("div", [self.certificate(target, one) for one in lists], class_="group"))
                  for target, lists in by_target.items()]
        return many(intro, groups, told)

    def certificate(self, target: str, sources: tuple[str, ...]) -> Markup:
        lines = self.facts.certificates[target, sources].splitlines()
        command = "prove-short" if lines[0].startswith("short") else "prove"
        words = el("code", " ".join([f"olap {command} SCHEMA", target, *sources]))
        more = len(lines) - MOST_REASONS
        return el(
            "details",
            el("summary", f"{target} from {listed(sources) or 'no source'}: {counted(len(lines), 'line')}"),
            el("p", words, f" writes it{f', with {more:,} more lines' if more > 0 else ''}.", id=self.certified[target, sources]),
            self.lines_pre(lines[:MOST_REASONS]),
            el("p", el("a", "Back to the tables", href="#table"), class_="back"),
        )

    def text(self) -> Markup:
        lines = self.facts.text.split("\n")
        lines = lines[:-1] if lines[-1] == "" else lines
        shown = [texts.without_return(line).replace("\t", "    ") for line in lines]
        items = [el("li", el("code", line), id=f"line-{number}") for number, line in enumerate(shown, 1)]
        return el("ol", Markup("\n".join(items)), class_="lines")
