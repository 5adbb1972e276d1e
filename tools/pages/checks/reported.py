"""The reports on the examples are well-formed, load nothing, lead somewhere, and say what the program says when it is asked again."""

import itertools
import random
import re
import tempfile
import time
from concurrent.futures import ThreadPoolExecutor
from pathlib import Path
from typing import Iterator

from certificates import checker

from .common import (EXAMPLES, IN_TIME, TOP, Element, categories_of, differs_from_counterexample, differs_from_frozen, edges_of, named, olap,
                     page_of, picture_faults, picture_of, pictures_of_page, tool)

FEW_SECONDS, BY_DEFAULT = 4, 32  # for the questions of a page
MOST_PAGE, MOST_EDGES = 16_000_000, 1024  # characters of a page, edges of a schema
FORBIDDEN = {"script", "link", "img", "iframe", "object", "embed", "base", "form", "image", "use", "foreignobject"}


def shape_faults(top: Element, text: str) -> Iterator[str]:
    """Elements, attributes, ids, links, landmarks and headings."""
    elements = top.all()
    ids = [each.attributes["id"] for each in elements if "id" in each.attributes]
    yield from (f"the id {id} stands twice" for id in sorted({id for id in ids if ids.count(id) > 1}))
    for element in elements:
        if element.tag in FORBIDDEN:
            yield f"an element {element.tag}"
        for name, value in element.attributes.items():
            if name.startswith("on") or name in ("src", "srcset", "xlink:href") or (name == "href" and not value.startswith("#")):
                yield f"an attribute {name}={value}"
            for id in value.split() if name in ("aria-labelledby", "aria-describedby") else [value[1:]] if name == "href" else []:
                if id not in ids:
                    yield f"{name} {value} leads nowhere"
        if element.tag == "svg" and (element.attributes.get("role") != "img" or "aria-labelledby" not in element.attributes):
            yield "a picture without a role or a name"
        if element.tag == "th" and element.attributes.get("scope") not in ("col", "row"):
            yield "a head of a table without a scope"
    for tag in ("header", "main", "nav", "footer", "h1", "title"):
        if len([each for each in top.all(tag) if tag != "title" or each.text().startswith("Report")]) != 1:
            yield f"not one {tag}"
    if re.search(r"url\(|@import|https?://", text):
        yield "a link to elsewhere"


def said_faults(top: Element, file: Path) -> Iterator[str]:
    """The text, line by line, and the audit."""
    lines = [line.text() for line in top.all("ol")[0].all("li")]
    if lines != file.read_text().expandtabs(4).splitlines():
        yield "its text isn't the schema's"
    findings = olap("audit", str(file))[1].splitlines()[:-1]
    if [each.all("a")[0].text() for each in top.all(id="audit")[0].all("li")] != findings:
        yield "its findings aren't those of the audit"


def joined(lines: list[str]) -> list[str]:
    """The first of those that differ in names alone, and how many others there are."""
    groups: dict[tuple, list[str]] = {}
    for line in lines:
        groups.setdefault((line.split()[1], *named(line)), []).append(line)
    others = {1: "", 2: "   and 1 other list of names"}
    return [some[0] + others.get(len(some), f"   and {len(some) - 1:,} other lists of names") for some in groups.values()]


def ways_faults(top: Element, text: str, file: Path) -> Iterator[str]:
    """The lines below each category's head, and the pictures of them; those of the lowest categories aren't folded."""
    drawn = {picture.name: picture for picture in map(picture_of, pictures_of_page(text))}
    section = top.all(id="frozen")[0]
    folded = [part for each in section.all("details") for part in each.parts]
    below: dict[str, list[str]] = {}
    for part in [each for each in [*section.parts, *folded] if isinstance(each, Element)]:
        if part.tag == "h3":
            category = part.text()
            below[category] = []
            if (part in folded) is (category in bottoms_of(file)):
                yield f"{category} is folded, or isn't"
        elif part.tag == "pre":
            below[category] = part.text().splitlines()
    for category in categories_of(file)[:-1]:
        lines = olap("frozen", str(file), category)[1].splitlines()[:-1]
        if below.get(category) != joined(lines)[:50]:
            yield f"the lines of {category} aren't the program's"
        for number, line in enumerate((each.split("   and ")[0] for each in joined(lines)[:6]), 1):
            name = f"Frozen dimension {number} of {category}"
            wrong = differs_from_frozen(drawn[name], line, edges_of(file)) if name in drawn else "isn't drawn"
            if wrong:
                yield f"{name}: {wrong}"


def bottoms_of(file: Path) -> set[str]:
    edges = edges_of(file)
    return {child for child, _ in edges} - {parent for _, parent in edges}


def below(file: Path, target: str) -> set[str]:
    """The categories below the target."""
    found: set[str] = set()
    while more := {child for child, parent in edges_of(file) if parent in found | {target}} - found:
        found |= more
    return found


def kinds_of_edges(text: str) -> dict[str, str]:
    """How each edge is drawn in the picture of the schema."""
    kinds = next(picture for picture in map(picture_of, pictures_of_page(text)) if picture.name.startswith("Schema")).kinds
    return {" ".join(title.split(":")[0].split()[1:]): kind for title, kind in kinds.items() if title.startswith("edge ")}


def edge_faults(text: str, file: Path) -> Iterator[str]:
    """Edges are solid where each member takes them, dashed where not, dotted where no way of a lowest category does."""
    ways = [line.split()[1] for bottom in sorted(bottoms_of(file)) for line in olap("frozen", str(file), bottom)[1].splitlines()[:-1]]
    found = kinds_of_edges(text)
    for number, (child, parent) in enumerate(edges_of(file)):
        always = olap("implies", str(file), child, f"{child}_{parent}")[0] == 0
        kind = ("always" if always else "sometimes") if any(way[number] == "1" for way in ways) else "idle"
        if found.get(f"{child} {parent}") != kind:
            yield f"the edge {child} {parent} is drawn as {found.get(f'{child} {parent}')}, and not as {kind}"


def enough_faults(top: Element, file: Path) -> Iterator[str]:
    """The first table against tools/least."""
    found = {}
    for row in top.all(id="enough")[0].all("tbody")[0].all("tr"):
        found[row.all("th")[0].text()] = [each.text().split(" + ") for each in row.all("span", **{"class": "list"})]
    for target in categories_of(file):
        said = [line.partition(" from ")[2].split() for line in tool("least", str(file), target).stdout.splitlines()]
        if (below(file, target) and target not in found) or found.get(target, said) != said[:8]:
            yield f"of {target} it says {found.get(target)}, and least {said}"


def alarm_faults(top: Element, file: Path) -> Iterator[str]:
    """A lowest category without members is told above all, and where none has members there are no tables."""
    barren = {each for each in bottoms_of(file) if olap("satisfiable", str(file), each)[0] == 1}
    told = [each.text() for each in top.all("p", **{"class": "alarm"})]
    if bool(told) is not bool(barren) or any(each not in told[0] for each in barren):
        yield f"{barren} can't have a member, and it says {told}"
    if barren == bottoms_of(file) and (top.all("table") or top.all("td")):
        yield "it has tables where there can be no fact"


def cells_of(top: Element) -> dict[tuple[str, tuple[str, ...]], Element]:
    cells = {}
    for table in [each for each in top.all("table") if each.all("caption")]:
        targets = [each.text() for each in table.all("thead")[0].all("th")[1:]]
        for row in table.all("tbody")[0].all("tr"):
            sources = tuple(row.all("th")[0].text().split(" and "))
            cells |= {(target, sources): cell for target, cell in zip(targets, row.all("td"), strict=True)}
    return {key: cell for key, cell in cells.items() if cell.attributes.get("class") != "other"}


def cell_faults(top: Element, text: str, file: Path, sample: int = 1) -> Iterator[str]:
    """Each answer of the tables against the program, asked anew, and the counterexample that a no leads to."""
    cells, edges = cells_of(top), edges_of(file)
    drawn = {picture.name.split(":")[0]: picture for picture in map(picture_of, pictures_of_page(text))}
    places = {each.all("p")[0].attributes["id"]: each for each in top.all("details") if each.all("p") and "id" in each.all("p")[0].attributes}
    answered = [key for key, cell in cells.items() if cell.text() != "no answer"][::sample]
    with ThreadPoolExecutor() as pool:
        answers = pool.map(lambda key: olap("summarizable", str(file), key[0], *key[1]), answered)
        for (target, sources), (status, said) in zip(answered, answers):
            cell, what = cells[target, sources], f"{target} from {' and '.join(sources)}"
            if status == 0:
                if cell.text().split(":")[0] != "yes":
                    yield f"{what}: the page says {cell.text()}, and the program yes"
                continue
            views = said.split()[-1]
            if not cell.text().startswith(f"no, {'lost' if views == 'none' else views + chr(0xD7)}:"):
                yield f"{what}: the page says {cell.text()}, and the views are {views}"
                continue
            place = places[cell.all("a")[0].attributes["href"][1:]]
            lines = said.splitlines()
            if place.all("pre")[0].text().splitlines() != [lines[1], *lines[-3:]]:
                yield f"{what}: its counterexample is another"
            if " and ".join(sources) not in re.split(r"; |: |\.$", place.all("p")[0].text()):
                yield f"{what}: its counterexample doesn't name the sources"
            anchor = cell.all("a")[0].attributes["href"].removeprefix("#no-")
            wrong = differs_from_counterexample(drawn[f"Counterexample {anchor}"], said, edges)
            if wrong:
                yield f"{what}: {wrong}"


def certificate_faults(top: Element, file: Path) -> Iterator[str]:
    """Each yes of the tables leads to a certificate, which the program accepts for its words, and so does tools/check-certificate."""
    places = {place.all("p")[0].attributes["id"]: place for place in top.all(id="certificates")[0].all("details")}
    for (target, sources), cell in cells_of(top).items():
        if not cell.text().startswith("yes"):
            continue
        place = places[cell.all("a")[0].attributes["href"][1:]] if cell.all("a") else None
        words = place.all("code")[0].text().split()[3:] if place else []
        if words != [target, *sources]:
            yield f"the yes of {target} from {' and '.join(sources)} leads to {words}"
    with tempfile.TemporaryDirectory() as folder:
        text = Path(folder) / "certificate"
        for place in places.values():
            words, lines = place.all("code")[0].text().split()[3:], place.all("pre")[0].text() + "\n"
            if "more lines" in place.all("p")[0].text():
                continue
            text.write_text(lines)
            command = "verify-short" if lines.startswith("short") else "verify"
            said = olap(command, str(file), str(text), *words)[1].strip(), checker.said(file.read_bytes(), words, lines.encode())
            if said != ("accepted", "accepted"):
                yield f"of the certificate for {words} the program and check-certificate say {said}"


def after_no_faults(top: Element, file: Path, data: list[str]) -> Iterator[str]:
    """What stands under each no is what olap-tools after-no says, but for simple constraints that didn't come in time."""
    for place in top.all(id="counterexamples")[0].all("details"):
        told = [each.text() for each in place.all("p")]
        if place.all("details") or not any(each.startswith("After the no of ") for each in told):
            continue
        sources = next(each for each in told if each.startswith("After the no of "))[len("After the no of ") : -1].split(" and ")
        target = place.all("summary")[0].text().split(" from ")[0]
        lines = place.all("pre")[1].text().splitlines()
        wanted = tool("olap-tools", "after-no", str(file), *data, target, *sources).stdout.splitlines()
        blocks = [each for each in wanted if not each.startswith("simple: ")]
        if lines not in (wanted, blocks):
            yield f"after the no of {target} from {' and '.join(sources)} it says {lines}"


def sql_faults(top: Element, file: Path) -> Iterator[str]:
    """Below each list that is enough its SQL, as olap-tools sql prints it."""
    for row in top.all(id="enough")[0].all("tbody")[0].all("tr"):
        target, lists = row.all("th")[0].text(), [each.text().split(" + ") for each in row.all("span", **{"class": "list"})]
        told = [each.text().rstrip("\n") for each in row.all("pre")]
        for sources, said in zip(lists, told):
            if said.partition("\n")[2] != tool("olap-tools", "sql", str(file), target, *sources).stdout.partition("\n")[2].rstrip("\n"):
                yield f"the SQL of {target} from {' and '.join(sources)} is another"
        if len(told) != len(lists):
            yield f"of {target} there are {len(lists)} lists, and {len(told)} statements"


def data_faults() -> Iterator[str]:
    """The page of the locations with their instance and facts."""
    schema, instance, facts = (EXAMPLES / "location" / name for name in ("schema.txt", "instance.csv", "facts.csv"))
    done = tool("report", *IN_TIME, str(schema), "--instance", str(instance), "--facts", str(facts))
    top, wrong = page_of(done.stdout)
    yield from wrong
    if "members: " not in done.stdout or "lost at usa: 1 of Store" not in done.stdout:
        yield f"it doesn't say which members are lost: status {done.returncode}, {done.stderr.strip()}"
    yield from after_no_faults(top, schema, [str(instance), str(facts)])
    yield from sql_faults(top, schema)


def page_faults(file: Path) -> Iterator[str]:
    done = tool("report", *IN_TIME, str(file))
    if done.returncode != 0 or done.stderr:
        yield f"status {done.returncode}: {done.stderr.strip()}"
        return
    top, wrong = page_of(done.stdout)
    yield from wrong
    yield from shape_faults(top, done.stdout)
    for svg in pictures_of_page(done.stdout):
        yield from picture_faults(svg)
    yield from said_faults(top, file)
    yield from ways_faults(top, done.stdout, file)
    yield from edge_faults(done.stdout, file)
    yield from alarm_faults(top, file)
    if top.all(**{"class": "alarm"}) and not top.all("table"):
        return
    yield from enough_faults(top, file)
    lower = {target: [each for each in categories_of(file) if each in below(file, target)] for target in categories_of(file)}
    wanted = {(target, some) for target, each in lower.items() for size in (1, 2) for some in itertools.combinations(each, size)}
    if set(cells_of(top)) != wanted or any(cell.text() == "no answer" for cell in cells_of(top).values()):
        yield f"its tables have {len(cells_of(top))} cells, and not {len(wanted)} answers"
    yield from cell_faults(top, done.stdout, file)
    yield from certificate_faults(top, file)


def large(folder: Path) -> Path:
    """A schema of 64 categories, All counted, 256 edges and 64 constraints."""
    layers = [[f"L{i}x{j}" for j in range(7)] for i in range(9)]
    below = [(i, j) for i in range(8) for j in range(7)]
    steps = [(i, j, (j + step) % 7) for step in (0, 1, 3, 4) for i, j in below] + [(i, j, (j + 5) % 7) for i, j in below[:25]]
    edges = [*((top, "All") for top in layers[8]), *((layers[i][j], layers[i + 1][k]) for i, j, k in steps)]
    either = [f"{layers[i][j]}: {layers[i][j]}_{layers[i + 1][j]} | {layers[i][j]}_{layers[i + 1][(j + 1) % 7]}" for i, j in below]
    never = [one.replace(" | ", " -> ") for one in either[:8]]
    lines = [
        "schema 1",
        *(f"category {name}" for layer in layers for name in layer),
        *(f"edge {child} {parent}" for child, parent in edges),
        *(f"constraint {one}" for one in either + never),
    ]
    file = folder / "large.txt"
    file.write_text("".join(line + "\n" for line in lines))
    return file


def empty_rows(top: Element) -> Iterator[str]:
    """No row of a table is of questions that got no answer alone."""
    for table in [each for each in top.all("table") if each.all("caption")]:
        for row in table.all("tbody")[0].all("tr"):
            if all(cell.attributes.get("class") in ("none", "other") for cell in row.all("td")):
                yield f"the row of {row.all('th')[0].text()} has no answer"


def tangle() -> list[tuple[str, str]]:
    """The edges of 255 categories, as many as there may be, each upwards to any other: more than Graphviz draws in the time."""
    drawn, edges = random.Random(1), {(i, i + 1): None for i in range(254)}
    while len(edges) < MOST_EDGES - 1:
        child = drawn.randrange(254)
        edges[child, drawn.randrange(child + 1, 255)] = None
    return [(f"C{child}", f"C{parent}") for child, parent in edges]


def limit_faults() -> Iterator[str]:
    """The pages of a chain of 255 categories, of the cube of four, and of a tangle take no more than their time, and a browser's room."""
    with tempfile.TemporaryDirectory() as folder:
        chain, tangled = Path(folder) / "chain.txt", Path(folder) / "tangle.txt"
        for file, edges in ((chain, [(f"C{i}", f"C{i + 1}") for i in range(254)]), (tangled, tangle())):
            lines = [*(f"category C{i}" for i in range(255)), *(f"edge {child} {parent}" for child, parent in edges), "edge C254 All"]
            file.write_text("".join(line + "\n" for line in ["schema 1", *lines]))
        for what, files in (("a chain", [chain]), ("four chains", [chain] * 4), ("a tangle", [tangled])):
            began = time.monotonic()
            done = tool("report", "--seconds", str(FEW_SECONDS), *map(str, files))
            rest = time.monotonic() - began - FEW_SECONDS
            if done.returncode != 0 or not done.stdout.endswith("</html>\n"):
                yield f"of {what}: status {done.returncode}, {done.stderr.strip()}"
            if rest > 60 - BY_DEFAULT:
                yield f"of {what}: it is made in {rest:.0f} s more than it may ask for"
            if len(done.stdout) > MOST_PAGE:
                yield f"of {what}: the page has {len(done.stdout):,} characters"
            if not any(text in done.stdout for text in ("<svg", "no time or room for this picture", "wasn&#x27;t drawn in the time")):
                yield f"of {what}: it has no picture, and doesn't say why"


def large_faults() -> Iterator[str]:
    """In too little time the page of a large schema says so, and what it says is still what the program says.

    The rest of a page's time, for pictures and for itself, is so short that with the time for questions it has by default, it is made
    in under a minute.
    """
    with tempfile.TemporaryDirectory() as folder:
        file = large(Path(folder))
        if olap("format", str(file))[0] != 0:
            yield f"the schema is refused: {olap('format', str(file))[1].strip()}"
            return
        began = time.monotonic()
        done = tool("report", "--seconds", str(FEW_SECONDS), str(file))
        rest = time.monotonic() - began - FEW_SECONDS
        if rest > 60 - BY_DEFAULT:
            yield f"it is made in {rest:.0f} s more than it may ask for, and with the {BY_DEFAULT} s by default not in a minute"
        top, wrong = page_of(done.stdout)
        yield from wrong
        yield from shape_faults(top, done.stdout)
        wanted = {(target, (source,)) for target in categories_of(file) for source in below(file, target)}
        if done.returncode != 0 or not set(cells_of(top)) <= wanted or "Pairs weren't asked" not in top.text():
            yield f"status {done.returncode}, {len(cells_of(top))} cells"
        yield from empty_rows(top)
        yield from cell_faults(top, done.stdout, file, 200)
        told = [(edge.split(), kind) for edge, kind in kinds_of_edges(done.stdout).items() if kind != "unknown"]
        for (child, parent), kind in told[::40]:
            if kind not in ("always", "sometimes") or (olap("implies", str(file), child, f"{child}_{parent}")[0] == 0) is not (kind == "always"):
                yield f"the edge {child} {parent} is drawn as {kind}"


def cube_faults(files: list[Path]) -> Iterator[str]:
    """The page of a cube: each list is enough and none without one of its sources, and each counterexample is the program's."""
    names = [str(file) for file in files]
    done = tool("report", *IN_TIME, *names)
    if done.returncode != 0 or done.stderr:
        yield f"status {done.returncode}: {done.stderr.strip()}"
        return
    top, wrong = page_of(done.stdout)
    yield from wrong
    yield from shape_faults(top, done.stdout)
    for svg in pictures_of_page(done.stdout):
        yield from picture_faults(svg)

    def ask(target: str, sources: list[str]) -> tuple[int, str]:
        return olap("cube", str(len(files)), *names, target, *sources)

    rows = top.all(id="enough")[0].all("tbody")[0].all("tr")
    lower = [[each for each in categories_of(file) if below(file, each)] for file in files]
    if [row.all("th")[0].text() for row in rows] != [",".join(each) for each in itertools.product(*lower)]:
        yield "its targets are others"
    questions = [(row.all("th")[0].text(), each.text().split(" + ")) for row in rows for each in row.all("span", **{"class": "list"})]
    shorter = [(target, [*some[:place], *some[place + 1 :]]) for target, some in questions for place in range(len(some))]
    shown = [each for each in top.all(id="counterexamples")[0].all("details")]
    with ThreadPoolExecutor() as pool:
        for wanted, asked in ((0, questions), (1, shorter)):
            for (target, sources), (status, _) in zip(asked, pool.map(lambda each: ask(*each), asked)):
                if status != wanted:
                    yield f"{target} from {' and '.join(sources)}: status {status}, not {wanted}"
    if not shown:
        yield "no counterexample"
    for each in shown:
        target, _, rest = each.all("summary")[0].text().partition(" from ")
        sources = rest.rpartition(": ")[0].split(" and ")
        lines = ask(target, sources)[1].splitlines()
        kept = [line for place, line in enumerate(lines) if line.startswith("dimension ") or lines[place - 1].startswith("dimension ")]
        if each.all("pre")[0].text().splitlines() != [*kept, *lines[-3:]]:
            yield f"{target} from {' and '.join(sources)}: its counterexample is another"


def faults() -> Iterator[str]:
    cube = [EXAMPLES / "location" / "schema.txt", EXAMPLES / "cubes" / "calendar.txt"]
    yield from (f"report of a cube: {wrong}" for wrong in cube_faults(cube))
    for file in [*sorted(EXAMPLES.glob("*/schema.txt")), TOP / "recipes" / "partitions" / "schema.txt"]:
        yield from (f"report {file.parent.name}: {wrong}" for wrong in page_faults(file))
    yield from (f"report on a large schema: {wrong}" for wrong in large_faults())
    yield from (f"report at the limits, {wrong}" for wrong in limit_faults())
    yield from (f"report with an instance: {wrong}" for wrong in data_faults())
