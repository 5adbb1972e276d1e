"""What the checks share: tools and the program run, and pictures and pages taken apart again, with none of the tools' own readers."""

import json
import os
import re
import shutil
import subprocess
import sys
import xml.etree.ElementTree as ET
from dataclasses import dataclass, field
from functools import cache
from html.parser import HTMLParser
from pathlib import Path

import debian
import harness

from ..program import TOP, find

TOOLS, EXAMPLES = TOP / "tools", TOP / "examples"
SVG = "{http://www.w3.org/2000/svg}"
SHAPES = {"svg", "g", "title", "desc", "style", "rect", "polygon", "polyline", "path", "ellipse", "text"}
VOID = {"meta", "br"}
PATIENCE = 170  # seconds
IN_TIME = ("--seconds", "120")  # for a report whose questions are all to be answered, on a loaded machine too


def of_tools(top: Path) -> set[str]:
    """What is installed and packaged of the designer's tools, by a list of their names and what the last commit and this folder have."""
    names = ("olap-tools", "check-certificate", "compare", "constants", "draw", "explain", "least", "made", "propose", "report")
    modules = [file for folder in ("designers", "pages") for file in (top / "tools" / folder).glob("*.py")]
    below = [*(f"tools/{name}" for name in names), *(str(file.relative_to(top)) for file in modules)]
    read = ["man/olap.1", "man/olap.5", "examples/location/schema.txt", "version"]
    return {"bin/olap-tools", "share/man/man1/olap-tools.1", "share/man/man5/olap.5", *(f"share/olap/{name}" for name in [*below, *read])}


def is_there(tool: str, package: str) -> bool:
    """Is the tool there? It is installed if it isn't and that can be done."""
    if shutil.which(tool) is None:
        debian.install(package)
    return shutil.which(tool) is not None


def not_run(what: str) -> None:
    """Tells in one line what wasn't run; that is no fault."""
    harness.not_run("check-pages", what)


def olap(*words: str, folder: Path = EXAMPLES) -> tuple[int, str]:
    done = subprocess.run([find(), *words], cwd=folder, capture_output=True, timeout=PATIENCE, check=False)
    return done.returncode, done.stdout.decode()


def tool(name: str, *words: str, folder: Path = EXAMPLES, **environment: str) -> subprocess.CompletedProcess:
    """Runs a tool of tools/, with what it prints as texts."""
    done = subprocess.run([sys.executable, TOOLS / name, *words], cwd=folder, env={**os.environ, **environment}, capture_output=True,
                          timeout=PATIENCE, check=False, stdin=subprocess.DEVNULL)
    done.stdout, done.stderr = done.stdout.decode(), done.stderr.decode()
    return done


# Schemas and frozen lines.


@cache
def edges_of(schema: Path) -> list[tuple[str, str]]:
    lines = [line.split() for line in olap("format", str(schema))[1].splitlines()]
    return [(words[1], words[2]) for words in lines if words[0] == "edge"]


@cache
def categories_of(schema: Path) -> list[str]:
    lines = [line.split() for line in olap("format", str(schema))[1].splitlines()]
    return [words[1] for words in lines if words[0] == "category"] + ["All"]


def named(line: str) -> dict[str, str]:
    """The names of a frozen line, whose strings are strings of JSON too."""
    return {category: json.loads(text) for category, text in re.findall(r'(\w+)=("(?:[^"\\]|\\.)*")', line)}


# Pictures.


@dataclass
class Drawn:
    """A picture: of each node what it is told as and its text, of each edge what it is told as, and which edges are thick."""

    name: str
    nodes: dict[str, str]
    edges: list[str]
    ways: set[str] = field(default_factory=set)
    bad: set[str] = field(default_factory=set)
    kinds: dict[str, str] = field(default_factory=dict)  # of each edge


def picture_of(svg: ET.Element) -> Drawn:
    drawn = Drawn(svg.findtext(f"{SVG}title", ""), {}, [])
    for group in svg.iter(f"{SVG}g"):
        kinds, title = group.get("class", "").split(), group.findtext(f"{SVG}title", "")
        if kinds[:1] == ["node"]:
            drawn.nodes[title] = "".join(text.text or "" for text in group.iter(f"{SVG}text"))
        elif kinds[:1] == ["edge"]:
            drawn.edges.append(title)
            drawn.ways |= {title} if "way" in kinds else set()
            drawn.bad |= {title} if "bad" in kinds else set()
            drawn.kinds[title] = kinds[-1]
    return drawn


def picture_faults(svg: ET.Element) -> list[str]:
    """What an SVG has that it must not have."""
    found = []
    for element in svg.iter():
        if element.tag.removeprefix(SVG) not in SHAPES:
            found.append(f"an element {element.tag}")
        for name, value in element.attrib.items():
            if "href" in name or name.startswith("on") or "url(" in value or "://" in value:
                found.append(f"an attribute {name}={value}")
    return found


def differs_from_frozen(drawn: Drawn, line: str, edges: list[tuple[str, str]]) -> str | None:
    """What a picture of a frozen dimension shows that its line doesn't say, or the other way."""
    texts = {f'{category} "{name}"': f'{category}"{name}"' for category, name in named(line).items()} | {"all": "all"}
    if drawn.nodes != texts:
        return f"the picture's members are {drawn.nodes}"
    wanted = [f"{child} to {parent}" for (child, parent), digit in zip(edges, line.split()[1]) if digit == "1"]
    return None if sorted(drawn.edges) == sorted(wanted) else f"the picture's edges are {drawn.edges}"


def ways_to(target: str, line: str, edges: list[tuple[str, str]]) -> set[str]:
    """The edges of a frozen line from which its edges lead on to the target."""
    there = [edge for edge, digit in zip(edges, line.split()[1]) if digit == "1"]
    below, before = {target}, set()
    while below != before:
        before, below = below, below | {child for child, parent in there if parent in below}
    return {f"{child} to {parent}" for child, parent in there if parent in below}


def differs_from_counterexample(drawn: Drawn, text: str, edges: list[tuple[str, str]]) -> str | None:
    """The same of a counterexample: members, edges, the fact, the target, and as many sources with the fact as the views say."""
    lines = text.splitlines()
    (_, root, _), (_, target, _), (_, _, views) = (line.split() for line in lines[-3:])
    marked = {told: text for told, text in drawn.nodes.items() if "instead of 1" in text}
    if [told.split()[0].rstrip(",") for told in marked] != [target.replace("All", "all")]:
        return f"the picture's target is {list(marked)}"
    if f"from the views: {views.replace('none', 'nothing')} instead of 1" not in next(iter(marked.values())):
        return f"the target's text is {list(marked.values())}"
    if sum("source: has the fact" in text for text in drawn.nodes.values()) != (0 if views == "none" else int(views)):
        return f"the views are {views}, and the picture's sources are others"
    if f"the fact lies at {root}" not in drawn.ways or f"a fact of value 1 at {root}" not in drawn.nodes:
        return "the fact isn't where the program says"
    if drawn.ways != {f"the fact lies at {root}", *ways_to(target, lines[1], edges)}:
        return f"the fact's ways are {drawn.ways}"
    there = {told: text for told, text in drawn.nodes.items() if "a fact of" not in told and "no member here" not in told}
    plain = {re.sub(r", (target|source: ).*", "", told): text for told, text in there.items()}
    texts = {told: re.sub(r"(targetfrom |source: ).*", "", text) for told, text in plain.items()}
    absent = [told.split(",")[0] for told in drawn.nodes if "no member here" in told]
    if set(absent) & set(named(lines[1])):
        return f"the picture has no member of {absent}"
    seeing = {told.split()[0].rstrip(",").replace("all", "All") for told, text in there.items() if "source: has the fact" in text}
    adding = {f"the view of {source} adds the fact to {target}" for source in seeing - {target}}
    if {edge for edge in drawn.edges if edge.startswith("the view of")} != adding:
        return f"the picture's sources add by {drawn.edges}"
    others = ("the fact lies at", "the view of")
    rest = [edge for edge in drawn.edges if not edge.startswith(others) and "would lie below" not in edge]
    return differs_from_frozen(Drawn(drawn.name, texts, rest), lines[1], edges)


# Pages.


@dataclass
class Element:
    tag: str
    attributes: dict[str, str]
    parts: list["Element | str"] = field(default_factory=list)

    def text(self) -> str:
        return "".join(part if isinstance(part, str) else part.text() for part in self.parts)

    def all(self, tag: str | None = None, **attributes: str) -> list["Element"]:
        found = [] if tag not in (None, self.tag) or attributes.items() - self.attributes.items() else [self]
        return found + [each for part in self.parts if isinstance(part, Element) for each in part.all(tag, **attributes)]


class Parser(HTMLParser):
    """Reads a page whose elements all are closed in their order; else `wrong` says what isn't."""

    def __init__(self) -> None:
        super().__init__(convert_charrefs=True)
        self.top = Element("", {})
        self.open, self.wrong = [self.top], []

    def handle_starttag(self, tag: str, attrs: list) -> None:
        if len({name for name, _ in attrs}) != len(attrs):
            self.wrong.append(f"an attribute of {tag} stands twice")
        element = Element(tag, {name: value or "" for name, value in attrs})
        self.open[-1].parts.append(element)
        if tag not in VOID:
            self.open.append(element)

    def handle_startendtag(self, tag: str, attrs: list) -> None:
        self.handle_starttag(tag, attrs)
        self.handle_endtag(tag)

    def handle_endtag(self, tag: str) -> None:
        if self.open[-1].tag != tag:
            self.wrong.append(f"{tag} ends where {self.open[-1].tag} is open")
        elif tag not in VOID:
            self.open.pop()

    def handle_data(self, data: str) -> None:
        self.open[-1].parts.append(data)


def page_of(text: str) -> tuple[Element, list[str]]:
    parser = Parser()
    parser.feed(text)
    parser.close()
    return parser.top, parser.wrong + [f"{each.tag} isn't closed" for each in parser.open[1:]]


def pictures_of_page(text: str) -> list[ET.Element]:
    """The pictures of a page, which are XML."""
    texts = re.findall(r"<svg .*?</svg>", text, re.S)
    return [ET.fromstring(each.replace("<svg ", f'<svg xmlns="{SVG[1:-1]}" ', 1)) for each in texts]
