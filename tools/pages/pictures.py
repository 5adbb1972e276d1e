"""Pictures of schemas, frozen dimensions, instances and counterexamples, as SVG by Graphviz.

A picture is nodes and edges with texts. Texts of the user's go to Graphviz as labels alone, escaped; names of nodes are numbers.
Of what Graphviz gives, only shapes and texts are taken (`cleaned`), with no colours, ids, fonts or links: those are a style's, here
`STYLE`, which follows the reader's choice of light or dark.
"""

from __future__ import annotations

import shutil
import sys
import textwrap
import unicodedata
import xml.etree.ElementTree as ET
from collections import defaultdict
from dataclasses import dataclass, field, replace
from typing import Iterable, Mapping, Sequence

from .program import Fault, output_of
from .texts import ALL, Counterexample, Frozen, Member, Schema

SVG = "http://www.w3.org/2000/svg"
KEPT = {
    "g": {"class", "transform"},
    "polygon": {"points"},
    "polyline": {"points", "stroke-dasharray"},
    "path": {"d", "stroke-dasharray"},
    "ellipse": {"cx", "cy", "rx", "ry"},
    "text": {"x", "y", "text-anchor", "font-size", "font-weight"},
}
WIDE = 24  # characters of a node's line
NOTE_WIDE, NOTE_LINES = 34, 4  # of a constraint in a note
MOST_NOTES = 24  # constraints whose formulas stand in the picture; of more, the numbers alone
SIGNS = {"\n": "\u21b5", "\r": "\u21b5", "\t": "\u21e5"}
TURNING = ("LRE", "RLE", "LRO", "RLO", "PDF", "LRI", "RLI", "FSI", "PDI")
NO_GRAPHVIZ = "no dot is in PATH: install Graphviz (Debian's package graphviz)"
BATCH = 8  # pictures of one run of Graphviz
MANY_EDGES = 512  # of a picture; with more, Graphviz may not look for the best place of each node, which takes minutes
QUICK = ", nslimit=0.2, nslimit1=0.2, mclimit=0.1"
# Of kinds of edges, what Graphviz is told; an edge `above` isn't seen, and only puts the one node over the other.
LOOKS = {"tied": ", style=dashed, arrowhead=none", "sometimes": ", style=dashed", "idle": ", style=dotted", "above": ", style=invis",
         "twice": ", constraint=false, style=bold"}
TITLE = 26  # the height of a title

# How an edge of a schema is taken.
TAKEN = {"always": "each {child} takes it", "sometimes": "some {child} may not take it", "idle": "no fact goes this way",
         "unknown": "no answer in the time of this page"}

STYLE = """
.olap { --paper: #fff; --ink: #1a1c20; --line: #4d5563; --node: #eef2f8; --rim: #5b6b85; --note: #fff6d8; --noterim: #8a6d1a;
  --way: #0b57b5; --target: #d7e8fb; --source: #dff1e0; --sourcerim: #23682b; --blind: #f3f3f3; --bad: #a4161a;
  --badfill: #fde4e4; }
@media (prefers-color-scheme: dark) { .olap { --paper: #14171c; --ink: #e8eaee; --line: #a3adbd; --node: #232b37;
  --rim: #8fa3c4; --note: #38320f; --noterim: #d0b04a; --way: #79b4ff; --target: #163a63; --source: #17391c; --sourcerim: #7fcb89;
  --blind: #24262b; --bad: #ff9a9c; --badfill: #4a1a1c; } }
@media print { .olap { --paper: #fff; --ink: #000; --line: #333; --node: #f3f5f9; --rim: #333; --note: #fff8e0; --noterim: #6a5310;
  --way: #003f8f; --target: #dcebfb; --source: #e2f2e3; --sourcerim: #14491b; --blind: #f6f6f6; --bad: #8c0f12;
  --badfill: #fdeaea; } }
.olap text { fill: var(--ink); font-family: "DejaVu Sans", Verdana, Arial, sans-serif; }
.olap .sheet { fill: var(--paper); }
.olap .node polygon, .olap .node path, .olap .node ellipse, .olap .node polyline { fill: var(--node); stroke: var(--rim); }
.olap .edge path { fill: none; stroke: var(--line); } .olap .edge polygon { fill: var(--line); stroke: var(--line); }
.olap .note polygon, .olap .note polyline { fill: var(--note); stroke: var(--noterim); }
.olap .edge.tied path { stroke: var(--noterim); }
.olap .fact ellipse { fill: var(--paper); stroke: var(--way); stroke-width: 2; }
.olap .edge.way path { stroke: var(--way); stroke-width: 3; }
.olap .edge.way polygon { fill: var(--way); stroke: var(--way); }
.olap .target polygon, .olap .target path { fill: var(--target); stroke: var(--way); stroke-width: 2.5; }
.olap .source polygon, .olap .source path { fill: var(--source); stroke: var(--sourcerim); stroke-width: 2; }
.olap .blind polygon, .olap .blind path { fill: var(--blind); stroke: var(--rim); stroke-dasharray: 4 3; }
.olap .node.bad polygon, .olap .node.bad path { fill: var(--badfill); stroke: var(--bad); stroke-width: 2.5; }
.olap .edge.bad path, .olap .edge.twice path { stroke: var(--bad); stroke-width: 3; }
.olap .edge.bad polygon, .olap .edge.twice polygon { fill: var(--bad); stroke: var(--bad); }
.olap .bottom polygon, .olap .bottom path { stroke-width: 2.5; }
.olap .edge.unknown path { stroke-dasharray: 8 3 2 3; } .olap .edge.idle path { stroke-width: 2; }
"""


@dataclass(frozen=True)
class Node:
    """A node: lines of text, what it is told as, how it looks, and the first line in bold."""

    lines: tuple[str, ...]
    told: str
    kind: str = "member"
    shape: str = "box"


@dataclass(frozen=True)
class Edge:
    """An edge between nodes, by their keys."""

    tail: str
    head: str
    told: str
    kind: str = "up"


@dataclass
class Picture:
    """A picture with its name, and what it shows told in words."""

    name: str
    told: str
    nodes: dict[str, Node] = field(default_factory=dict)
    edges: list[Edge] = field(default_factory=list)
    level: list[tuple[str, str]] = field(default_factory=list)  # nodes that stand beside each other


# What is drawn.


def of_schema(schema: Schema, name: str, taken: Mapping[tuple[str, str], str] | None = None) -> Picture:
    """Categories, edges, and each category's constraints as a note beside it; and of edges which are taken, where that is known."""
    picture = Picture(name, f"{counted(len(schema.categories), 'category', 'categories')}, {counted(len(schema.edges), 'edge')}, "
                            f"{counted(len(schema.constraints), 'constraint')}")
    for category in schema.categories:
        is_bottom = category in schema.bottoms
        notes = ["names are numbers"] * (category in schema.numbered) + ["facts stand here"] * is_bottom
        told = "".join(f"{mark}{note}" for mark, note in zip((": ", ", "), notes))
        picture.nodes[category] = Node((category, *notes), f"category {category}{told}", "bottom" if is_bottom else "category")
    for child, parent in schema.edges:
        kind = "up" if taken is None else taken.get((child, parent), "unknown")
        told = f": {TAKEN[kind].format(child=child)}" if kind in TAKEN else ""
        picture.edges.append(Edge(child, parent, f"edge {child} {parent}{told}", kind))
    are_many = len(schema.constraints) > MOST_NOTES
    notes: dict[str, list[str]] = defaultdict(list)
    told: dict[str, list[str]] = defaultdict(list)
    for number, constraint in enumerate(schema.constraints, 1):
        text = f"{number}: {constraint.formula}"
        told[constraint.root].append(text)
        notes[constraint.root] += [str(number)] if are_many else shortened(text)
    for root, lines in notes.items():
        if are_many:
            lines = textwrap.wrap("constraints " + ", ".join(lines), WIDE)
        key = f"note {root}"
        picture.nodes[key] = Node(tuple(lines), f"constraints of {root}: {'; '.join(told[root])}", "note", "note")
        picture.edges.append(Edge(root, key, f"the note is about {root}", "tied"))
        picture.level.append((key, root))
    return picture


def of_frozen(frozen: Frozen, root: str, name: str) -> Picture:
    """A frozen dimension: its members, and all that lies above them."""
    told = [told_of(category, text) for category, text in frozen.names.items()]
    picture = Picture(name, f"{root}'s way up: {', '.join(told + ['all'])}")
    for category, text in frozen.names.items():
        picture.nodes[category] = Node(lines_of(category, text), told_of(category, text))
    picture.nodes[ALL] = Node(("all",), "all")
    picture.edges += [Edge(child, parent, f"{child} to {parent}") for child, parent in frozen.edges]
    return picture


def of_instance(members: Sequence[Member], name: str, bad: Iterable[str] = (), twice: str | None = None) -> Picture:
    """An instance: each member with its category and, where they differ, its id and its name; members of a category side by side.

    The `bad` members are marked, and where the first of them is below two members of the category `twice`, these and its ways there.
    """
    picture = Picture(name, f"{counted(len(members), 'member')} without all")
    marked = set(bad)
    wrong = wrong_ways(members, next(iter(bad), ""), twice) if twice else set()
    marked |= {parent for _, parent in wrong for member in members if member.id == parent and member.category == twice}
    for member in members:
        told = f"{member.category} {member.id}" + (f", named {member.name}" if member.name != member.id else "")
        lines = (member.category, *wrapped(member.id), *(wrapped(f'"{member.name}"') if member.name != member.id else ()))
        picture.nodes[member.id] = Node(lines, told, "bad" if member.id in marked else "member")
    picture.nodes["all"] = Node(("all",), "all")
    for member in members:
        for parent in member.parents:
            picture.edges.append(Edge(member.id, parent, f"{member.id} to {parent}", "bad" if (member.id, parent) in wrong else "up"))
    first: dict[str, str] = {}
    for member in members:
        if first.setdefault(member.category, member.id) != member.id:
            picture.level.append((first[member.category], member.id))
    return picture


def wrong_ways(members: Sequence[Member], start: str, category: str) -> set[tuple[str, str]]:
    """The edges on the ways of a member to all members of a category."""
    children: dict[str, list[str]] = defaultdict(list)
    for member in members:
        for parent in member.parents:
            children[parent].append(member.id)
    # What leads to a member of the category, from those members down; ways end at the first of them.
    ends = {member.id for member in members if member.category == category}
    leading, left = set(ends), list(ends)
    while left:
        new = [child for child in children[left.pop()] if child not in leading]
        leading.update(new)
        left += new
    parents = {member.id: member.parents for member in members}
    found, reached, left = set(), {start}, [start]
    while left:
        one = left.pop()
        if one in ends and one != start:
            continue
        for parent in parents.get(one, ()):
            if parent in leading:
                found.add((one, parent))
                if parent not in reached:
                    reached.add(parent)
                    left.append(parent)
    return found


def of_counterexample(shown: Counterexample, sources: Sequence[str], name: str) -> Picture:
    """The fact, the ways that it takes to the target, and which sources see it."""
    seeing = [source for source in sources if shown.sees(source)]
    if len(seeing) != (shown.views or 0):
        raise Fault(f"of {' '.join(sources) or 'no source'} {len(seeing)} see the fact, and the program says {shown.views}", 70)
    picture = of_frozen(shown.frozen, shown.root, name)
    picture.told = told_of_counterexample(shown, seeing)
    for category in (*shown.frozen.names, ALL):
        node = picture.nodes[category]
        if category == shown.target:
            picture.nodes[category] = marked(node, "bad", "target", f"from the views: {amount(shown)} instead of 1")
            node = picture.nodes[category]
        if category in sources:
            sees = category in seeing
            kind = node.kind if category == shown.target else "source" if sees else "blind"
            picture.nodes[category] = marked(node, kind, "source: has the fact" if sees else "source: not below the target")
            if sees and category != shown.target:
                picture.edges.append(Edge(category, shown.target, f"the view of {category} adds the fact to {shown.target}", "twice"))
    for category in sources:
        if category not in picture.nodes:
            picture.nodes[category] = Node((category, "source: no member here"), f"{category}, source: no member here", "blind")
            picture.edges.append(Edge(category, shown.target, f"{category} would lie below {shown.target}", "above"))
    picture.nodes["fact"] = Node(("fact 1",), f"a fact of value 1 at {shown.root}", "fact", "ellipse")
    on_way = ways(shown)
    picture.edges = [replace(e, kind="way") if e.kind == "up" and (e.tail, e.head) in on_way else e for e in picture.edges]
    picture.edges.append(Edge("fact", shown.root, f"the fact lies at {shown.root}", "way"))
    return picture


def of_cube_way(shown: Counterexample, sources: Sequence[str], name: str) -> Picture:
    """One dimension of a cube's counterexample: the fact's ways to the target's category, and which sources, by number, have it here."""
    picture = of_frozen(shown.frozen, shown.root, name)
    picture.nodes[shown.target] = marked(picture.nodes[shown.target], "target", "target")
    for number, category in enumerate(sources, 1):
        if category in picture.nodes:
            sees = shown.sees(category)
            node = picture.nodes[category]
            kind = "target" if category == shown.target else "source" if sees or node.kind == "source" else "blind"
            picture.nodes[category] = marked(node, kind, f"source {number}: {'has the fact here' if sees else 'not below the target'}")
        else:
            node = picture.nodes.get(f"no {category}", Node((category,), category, "blind"))
            picture.nodes[f"no {category}"] = marked(node, "blind", f"source {number}: no member here")
    for key in [key for key in picture.nodes if key.startswith("no ")]:
        picture.edges.append(Edge(key, shown.target, f"{key[3:]} would lie below {shown.target}", "above"))
    picture.nodes["the fact"] = Node(("fact 1",), f"a fact of value 1 at {shown.root}", "fact", "ellipse")
    on_way = ways(shown)
    picture.edges = [replace(e, kind="way") if e.kind == "up" and (e.tail, e.head) in on_way else e for e in picture.edges]
    picture.edges.append(Edge("the fact", shown.root, f"the fact lies at {shown.root}", "way"))
    return picture


def amount(shown: Counterexample) -> str:
    """What the target has from the views."""
    return "nothing" if shown.views is None else str(shown.views)


def ways(shown: Counterexample) -> set[tuple[str, str]]:
    """The edges that lie on a way of the fact to the target."""
    return {(child, parent) for child, parent in shown.frozen.edges if shown.target in shown.above(parent)}


def told_of_counterexample(shown: Counterexample, seeing: Sequence[str]) -> str:
    by = {0: "no source", 1: "one source"}.get(len(seeing), f"{len(seeing)} sources")
    which = f" ({', '.join(seeing)})" if seeing else ""
    members = ", ".join(told_of(category, text) for category, text in shown.frozen.names.items())
    views = "none" if shown.views is None else shown.views
    fact = f"A fact of value 1 at {shown.root}; {by}{which} of the target {shown.target} has it."
    return f"{fact} Direct 1, from the views {views}. Members: {members}"


def marked(node: Node, kind: str, *lines: str) -> Node:
    return Node((*node.lines, *lines), f"{node.told}, {', '.join(lines)}", kind, node.shape)


def told_of(category: str, name: str) -> str:
    return f'{category} "{name}"'


def lines_of(category: str, name: str) -> tuple[str, ...]:
    return (*wrapped(category), *wrapped(f'"{name}"'))


def wrapped(text: str) -> tuple[str, ...]:
    """The text in lines that a node holds, cut where it is long."""
    pieces = [text[i : i + WIDE] for i in range(0, len(text), WIDE)] or [""]
    return tuple(pieces if len(pieces) <= 4 else [*pieces[:3], pieces[3][:-1] + "…"])


def shortened(text: str) -> list[str]:
    lines = textwrap.wrap(text, NOTE_WIDE, subsequent_indent="     ", drop_whitespace=False)
    return lines if len(lines) <= NOTE_LINES else [*lines[: NOTE_LINES - 1], lines[NOTE_LINES - 1][: NOTE_WIDE - 1] + "…"]


def counted(number: int, one: str, more: str | None = None) -> str:
    return f"{number:,} {one if number == 1 else more or one + 's'}"


# To Graphviz, and back.


def visible(text: str) -> str:
    """The text with a sign for each character that XML doesn't hold or that isn't seen."""
    return "".join(SIGNS.get(c) or signed(c) for c in text)


def signed(character: str) -> str:
    """A character that turns the direction of a text, or that no XML holds, as the sign for what can't be shown."""
    turns = unicodedata.bidirectional(character) in TURNING or character in "\u200e\u200f\u061c"
    return "\ufffd" if turns or unicodedata.category(character) in ("Cc", "Cs", "Cn", "Zl", "Zp") else character


def quoted(text: str) -> str:
    """A string of the language DOT that stands for just these characters; Graphviz reads entities and escapes in labels."""
    return '"' + visible(text).replace("\\", "\\\\").replace("&", "&amp;").replace('"', '\\"') + '"'


def label(node: Node) -> str:
    """The lines in the middle, and those of a note from the left."""
    end = "\\l" if node.shape == "note" else "\\n"
    text = end.join(quoted(line)[1:-1] for line in node.lines)
    return f'"{text}{end if node.shape == "note" else ""}"'


def dot_text(picture: Picture) -> str:
    place = {key: f"n{i}" for i, key in enumerate(picture.nodes)}
    quick = QUICK if len(picture.edges) > MANY_EDGES else ""
    lines = [
        "digraph {",
        f"graph [rankdir=BT, nodesep=0.3, ranksep=0.45, bgcolor=transparent{quick}];"
        ' node [fontname="DejaVu Sans", fontsize=12, '
        'margin="0.12,0.06"]; edge [arrowsize=0.7];',
    ]
    for key, node in picture.nodes.items():
        small = ", fontsize=10, margin=\"0.17,0.07\"" if node.shape == "note" else ""
        style = ', style=rounded' if node.shape == "box" else ""
        lines.append(f"{place[key]} [shape={node.shape}, class={quoted(node.kind)}, label={label(node)}{style}{small}];")
    for edge in picture.edges:
        look = LOOKS.get(edge.kind, "")
        lines.append(f"{place[edge.tail]} -> {place[edge.head]} [class={quoted(edge.kind)}{look}];")
    lines += [f"{{ rank=same; {place[one]}; {place[other]} }}" for one, other in picture.level]
    return "\n".join([*lines, "}\n"])


def drawn(pictures: Sequence[Picture], seconds: float | None = None) -> list[ET.Element]:
    """The pictures as SVG elements without a style; `Late` where some aren't made within so many seconds."""
    found: list[ET.Element] = []
    for start in range(0, len(pictures), BATCH):
        batch = pictures[start : start + BATCH]
        texts = graphviz("".join(dot_text(picture) for picture in batch), seconds).split("<?xml")[1:]
        if len(texts) != len(batch):
            raise Fault("Graphviz drew other pictures than those asked for", 70)
        found += [cleaned(ET.fromstring("<?xml" + text), picture) for text, picture in zip(texts, batch)]
    return found


def must_be_there() -> None:
    """Tells before the work that there is no Graphviz."""
    if shutil.which("dot") is None:
        raise Fault(NO_GRAPHVIZ, 70)


def are_there() -> bool:
    """Is there Graphviz? If not, a line says before the work that there will be no pictures."""
    if shutil.which("dot") is None:
        print(f"report: {NO_GRAPHVIZ}: the page will have no pictures", file=sys.stderr)
        return False
    return True


def graphviz(text: str, seconds: float | None) -> str:
    try:
        status, printed = output_of(["dot", "-Tsvg"], seconds=seconds, given=text.encode())
    except FileNotFoundError:
        raise Fault(NO_GRAPHVIZ, 70) from None
    if status != 0:
        raise Fault(f"Graphviz (dot -Tsvg) ended with status {status}", 70)
    return printed.decode()


def local(tag: str) -> str:
    """A tag without the namespace of SVG."""
    space = f"{{{SVG}}}"
    return tag[len(space) :] if tag.startswith(space) else tag


def cleaned(given: ET.Element, picture: Picture) -> ET.Element:
    """Shapes and texts alone, each node and edge with the title that tells it."""
    place = {f"n{i}": node.told for i, node in enumerate(picture.nodes.values())}
    number = {key: f"n{i}" for i, key in enumerate(picture.nodes)}
    told = defaultdict(list)
    for edge in picture.edges:
        told[f"{number[edge.tail]}->{number[edge.head]}"].append(edge.told)
    root = ET.Element("svg", {"class": "olap", "role": "img", "viewBox": given.attrib["viewBox"]})
    root.set("width", given.attrib["width"].replace("pt", ""))
    root.set("height", given.attrib["height"].replace("pt", ""))
    ET.SubElement(root, "title").text = visible(picture.name)
    ET.SubElement(root, "desc").text = visible(picture.told)
    for group in given.iter(f"{{{SVG}}}g"):
        if group.get("class", "").split()[:1] == ["graph"]:
            whole = ET.SubElement(root, "g", {"transform": group.attrib["transform"]})
            for part in group:
                if part.tag == f"{{{SVG}}}g":
                    title = part.findtext(f"{{{SVG}}}title", "")
                    whole.append(kept(part, place[title] if title in place else told[title].pop(0)))
    return root


def kept(part: ET.Element, title: str | None = None) -> ET.Element:
    tag = local(part.tag)
    found = ET.Element(tag, {key: value for key, value in part.attrib.items() if key in KEPT[tag]})
    if title is not None:
        ET.SubElement(found, "title").text = visible(title)
    found.text = part.text if tag == "text" else None
    for child in part:
        if local(child.tag) in KEPT:
            found.append(kept(child))
    return found


def alone(element: ET.Element) -> str:
    """An SVG text that stands by itself, with its style and sheet."""
    left, top, width, height = map(float, element.attrib["viewBox"].split())
    element = ET.fromstring(ET.tostring(element))
    title = element.findtext("title", "")
    width, top, height = max(width, 7.5 * len(title) + 16), top - TITLE, height + TITLE
    size = {"viewBox": f"{left:g} {top:g} {width:g} {height:g}", "width": f"{width:g}", "height": f"{height:g}"}
    element.attrib.update({**size, "xmlns": SVG})
    style = ET.Element("style")
    style.text = STYLE
    element.insert(2, style)
    sheet = {"x": left, "y": top, "width": width, "height": height}
    element.insert(3, ET.Element("rect", {"class": "sheet", **{key: f"{value:g}" for key, value in sheet.items()}}))
    written = ET.Element("text", {"x": f"{left + 8:g}", "y": f"{top + 17:g}", "font-size": "13", "font-weight": "bold"})
    written.text = title
    element.insert(4, written)
    return '<?xml version="1.0" encoding="UTF-8"?>\n' + ET.tostring(element, encoding="unicode") + "\n"
