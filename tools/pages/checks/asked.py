"""The small tools least, compare, constants, propose, made and explain say what the program says, on examples and on hostile texts."""

import csv
import itertools
import os
import re
import signal
import subprocess
import sys
import tempfile
import time
from pathlib import Path
from typing import Iterator

from .bad_input import one_line
from .common import EXAMPLES, TOOLS, TOP, categories_of, olap, tool
from .. import explaining, form
from ..program import find, most_bytes

LOCATION, IMPOSSIBLE = "location/schema.txt", "impossible/schema.txt"
PARTITIONS = str(TOP / "recipes" / "partitions" / "schema.txt")
# A store lies in one of four levels, and each of these in T: T is to be had from the stores, or from all four.
FOUR = "schema 1\n" + "".join(f"category {name}\n" for name in "SABCDT") + "".join(f"edge S {name}\nedge {name} T\n" for name in "ABCD")
FOUR += "edge T All\nconstraint S: one(S_A, S_B, S_C, S_D)\n"
MADE = ((7, 1000), (0, 1), (2**64 - 1, 70))
HOSTILE = '-$(touch ran) "é" <b>\u202e; %s\\'


def is_yes(schema: str, target: str, sources: tuple[str, ...]) -> bool:
    return olap("summarizable", schema, target, *sources)[0] == 0


def least_faults(room: Path) -> Iterator[str]:
    """Against every list of up to four other sources of a schema."""
    (room / "four.txt").write_text(FOUR)
    for schema, target in ((LOCATION, "Region"), (LOCATION, "Country"), (PARTITIONS, "Country"), (str(room / "four.txt"), "T")):
        others = [each for each in categories_of(Path(schema)) if each not in (target, "All")]
        enough: list[tuple[str, ...]] = []
        for size in range(5):
            for some in itertools.combinations(others, size):
                if not any(set(each) <= set(some) for each in enough) and is_yes(schema, target, some):
                    enough.append(some)
        done = tool("least", schema, target)
        if done.stdout.splitlines() != [f"{target} from {' '.join(some)}" for some in enough] or done.returncode != 0:
            yield f"least {schema} {target}: {done.stdout!r} {done.stderr!r}, and enough is {enough}"
    yield from one_line("least of a lowest category", tool("least", LOCATION, "Store"), 1)
    yield from one_line("least without facts", tool("least", IMPOSSIBLE, "City"), 1)


def compare_faults(room: Path) -> Iterator[str]:
    text = (EXAMPLES / LOCATION).read_text()
    (room / "new.txt").write_text(text.replace('City_Country <-> City = "Washington"', "!City_Country").replace("Store", "Shop"))
    old, new = str(EXAMPLES / LOCATION), str(room / "new.txt")
    done = tool("compare", old, new)
    both = [each for each in categories_of(Path(old)) if each != "Store"]
    wanted = ["only in the old schema: Store", "only in the new schema: Shop"]
    for target in both:
        for some in [*((one,) for one in both), *itertools.combinations(both, 2)] if target in ("Country", "Region") else []:
            said = [{True: "yes", False: "no"}[is_yes(schema, target, some)] for schema in (old, new)]
            wanted += [f"{target} from {' '.join(some)}: was {said[0]}, is {said[1]}"] if said[0] != said[1] else []
    lines = [line for line in done.stdout.splitlines() if not line.startswith("All from")]
    if lines != wanted or done.returncode != 1 or len(wanted) < 3:
        yield f"compare: {done.stdout!r} {done.stderr!r}, and not {wanted}"
    done = tool("compare", old, old)
    if (done.returncode, done.stdout) != (0, ""):
        yield f"compare of a schema with itself: status {done.returncode}, {done.stdout!r}"
    done = tool("compare", IMPOSSIBLE, IMPOSSIBLE)
    if done.stdout.splitlines() != ["the old schema: unsatisfiable Stall", "the new schema: unsatisfiable Stall"]:
        yield f"compare doesn't tell what the audit does: {done.stdout!r}"


def constants_faults(room: Path) -> Iterator[str]:
    spelt = HOSTILE.replace("\\", "\\\\").replace('"', '\\"')
    text = (EXAMPLES / LOCATION).read_text()
    (room / "schema.txt").write_text(text + f'constraint Store: Store.Country = "Untied States" -> Store = "{spelt}" | Store = "a = \\"b"\n')
    words = ("schema.txt", str(EXAMPLES / "location" / "instance.csv"))
    number = sum(line.startswith("constraint ") for line in text.splitlines()) + 1
    shown = HOSTILE.replace("\u202e", "\\u202e")
    wanted = [f"constraint {number}: no {what} has the name \"{name}\"" for what, name in (("Country", "Untied States"), ("Store", shown), ("Store", 'a = "b'))]
    done = tool("constants", *words, folder=room)
    if done.returncode != 1 or done.stdout.splitlines() != wanted:
        yield f"constants: status {done.returncode}, {done.stdout!r} {done.stderr!r}"
    with (EXAMPLES / "location" / "instance.csv").open(newline="") as file:
        rows = [*csv.reader(file), ["h", "Store", HOSTILE, "w"], ["i", "Store", 'a = "b', "w"], ["u", "Country", "Untied States", "all"]]
    with (room / "instance.csv").open("w", newline="") as file:
        csv.writer(file).writerows(rows)
    done = tool("constants", "schema.txt", "instance.csv", folder=room)
    if (done.returncode, done.stdout) != (0, ""):
        yield f"constants where each has a member: status {done.returncode}, {done.stdout!r} {done.stderr!r}"


def number_faults(room: Path) -> Iterator[str]:
    """A number is told where no member has it, however it is spelt there; one that is compared by `<` need be nobody's."""
    (room / "schema.txt").write_text("schema 2\ncategory A\ncategory Y number\nedge A Y\nedge Y All\nconstraint A: A.Y = 7 | A.Y < 99\n")
    for name, wanted in (("007", []), ("8", ["constraint 1: no Y has the number 7"])):
        (room / "instance.csv").write_text(f"id,category,name,parents\na,A,a,y\ny,Y,{name},all\n")
        done = tool("constants", "schema.txt", "instance.csv", folder=room)
        if done.stdout.splitlines() != wanted or done.returncode != len(wanted):
            yield f"constants of the number {name}: status {done.returncode}, {done.stdout!r} {done.stderr!r}"


def counted(instance: Path) -> list[tuple[str, str, str, str]]:
    """Of each pair of categories with a member and its parent, by child in the order of the file: how many take it, and of how many."""
    with instance.open(newline="") as file:
        rows = list(csv.DictReader(file))
    kind = {row["id"]: row["category"] for row in rows} | {"all": "All"}
    counts: dict[str, dict[str, int]] = {}
    for row in rows:
        of_child = counts.setdefault(row["category"], {})
        for parent in row["parents"].split(";"):
            of_child[kind[parent]] = of_child.get(kind[parent], 0) + 1
    sizes = {child: sum(row["category"] == child for row in rows) for child in counts}
    return [(str(number), str(sizes[child]), child, parent) for child, each in counts.items() for parent, number in each.items()]


def propose_faults(room: Path) -> Iterator[str]:
    for instance in ("location/instance.csv", "chain/instance.csv"):
        done = tool("propose", instance)
        (room / "proposed.txt").write_text(done.stdout)
        said = olap("check", str(room / "proposed.txt"), instance)[1]
        if done.returncode != 0 or not said.startswith("legal ") or "\nconstraint" in done.stdout:
            yield f"propose {instance}: status {done.returncode}, {said!r}"
        (room / "proposed.txt").write_text(done.stdout.replace("# constraint", "constraint"))
        if olap("check", str(room / "proposed.txt"), instance)[1] != said:
            yield f"propose {instance}: the constraints that it proposes are {olap('check', str(room / 'proposed.txt'), instance)[1]!r}"
        counts = counted(EXAMPLES / instance)
        told = re.findall(r"^# (\d+) of (\d+) members of (\w+) take this edge\nedge \3 (\w+)$", done.stdout, re.M)
        if counts != told:
            yield f"propose {instance}: it counts {told}, and there are {counts}"
    header = "id,category,name,parents\n"
    (room / "long.csv").write_text(header)
    os.truncate(room / "long.csv", most_bytes("instance") + 1)
    yield from one_line("propose of a file that is too long", tool("propose", "long.csv", folder=room), 3)
    for text in ("", "member,value\n", header + "a,Store,a\n", header + '"a","Store\nedge A B",a,all\n', header + "a,All,a,all\n",
                 header + "a,Store,a,b\n", header + "a,Störe,a,all\n"):
        (room / "bad.csv").write_text(text)
        yield from one_line(f"propose of {text!r}", tool("propose", "bad.csv", folder=room), 3)
    (room / "years.csv").write_text(header + "a,Month,5,y\nb,Month,May,y\ny,Year,2026,all\nz,Year,-0007,all\n")
    done = tool("propose", "years.csv", folder=room)
    told = [line for line in done.stdout.splitlines() if "is a number" in line]
    if told != ["# each name of Year is a number: with `schema 2` above, it may be `category Year number`"]:
        yield f"propose of numbers: {done.stdout!r} {done.stderr!r}"
    kinds = "x,A,x,b;d\ny,A,y,c;d\nb,B,b,all\nc,C,c,d2\nc2,C,c2,all\nd,D,d,all\nd2,D,d,all\n"
    (room / "kinds.csv").write_text(header + kinds)
    told = [line for line in tool("propose", "kinds.csv", folder=room).stdout.splitlines() if "constraint" in line]
    if told != ["# constraint A: A_D", "# constraint A: one(A_B, A_C)", "# constraint C: one(C_All, C_D)"]:
        yield f"propose of kinds: {told}"
    (room / "odd.csv").write_text(header + '"a""b\n",Store,"-x",all;c\nc,Store,c,\n')
    done = tool("propose", "odd.csv", folder=room)
    if done.returncode != 0 or done.stdout.count("which no schema allows") != 2 or "edge Store All\n" not in done.stdout:
        yield f"propose of what no schema allows: {done.stdout!r} {done.stderr!r}"


def made_faults(room: Path) -> Iterator[str]:
    """Against the seven lines of `generate`."""
    for seed, size in MADE:
        folder = room / f"{seed} {size}"
        done = tool("made", str(seed), str(size), str(folder))
        files = [str(folder / name) for name in ("schema.txt", "instance.csv", "facts.csv")]
        said = dict(line.split(" ", 1) for line in olap("generate", str(seed), str(size))[1].splitlines())
        store = olap("store", *files, "State", "Province", "City")[1]
        (room / "store.csv").write_text(store)
        plan, _, *rows = olap("answer", *files[:2], str(room / "store.csv"), "Region")[1].splitlines()
        sums = [row.split(",") for row in rows]
        found = {
            "members": olap("check", *files[:2])[1].strip().removeprefix("legal "), "plan": plan.removeprefix("plan "),
            "facts": olap("rollup", *files, "All")[1].splitlines()[1].split(",")[1], "stored": str(len(store.splitlines()) - 4),
            "rows": str(len(rows)), "count": str(sum(int(row[1]) for row in sums)), "sum": str(sum(int(row[2]) for row in sums)),
        }  # fmt: skip
        if done.returncode != 0 or done.stdout or found != said:
            yield f"made {seed} {size}: status {done.returncode}, {found}, and generate says {said}"
        yield from one_line("made into a folder that isn't empty", tool("made", "1", "1", str(folder)), 5)
    for words in (("x", "1"), ("-1", "1"), ("1", "0"), ("1", "200001"), (str(2**64), "1"), ("1", "١")):
        if words[0] != "-1":
            yield from one_line(f"made {words}", tool("made", *words, "new", folder=room), 3)
    yield from one_line("made into no folder", tool("made", "1", "1", "no/such/folder", folder=room), 5)
    if {path.name for path in room.iterdir()} != {"store.csv", *(f"{seed} {size}" for seed, size in MADE)}:
        yield f"made leaves {sorted(os.listdir(room))}"


def through_explain(room: Path, *words: str) -> subprocess.CompletedProcess:
    asked = subprocess.run([find(), *words], cwd=room, stdout=subprocess.PIPE, stderr=subprocess.DEVNULL, check=False)
    done = explained(room, asked.stdout, *words)
    done.said, done.status = asked.stdout.decode(), asked.returncode
    return done


def explained(room: Path, said: bytes, *words: str) -> subprocess.CompletedProcess:
    done = subprocess.run([sys.executable, TOOLS / "explain", *words], cwd=room, input=said, capture_output=True, check=False)
    done.stdout, done.stderr = done.stdout.decode(), done.stderr.decode()
    return done


def explain_faults(room: Path) -> Iterator[str]:
    """What was printed stands first, and below it the line or record, and the manual's sentence."""
    schema, instance = str(EXAMPLES / LOCATION), str(EXAMPLES / "location" / "instance.csv")
    calendar, days = (str(EXAMPLES / "cubes" / name) for name in ("calendar.txt", "days.csv"))
    head = "id,category,name,parents\n"
    hostile = '"a\nb","Store","<b>\u202e","nowhere, ""x"""\n'
    texts = {"two.csv": head + "usa,Country,USA,all\nusa,Country,x,all\n", "hostile.csv": head + "\n\n" + hostile, "facts.csv": "member,value\nusa,1\n",
             "bad.txt": "schema 1\ncategory A\nedge A all\n", "none.csv": head + "s,Store,s,\n", "state.csv": head + "c,Country,x,all\nt,State,t,c\n"}  # fmt: skip
    texts["odd.txt"] = "schema 1\n# a\u2028schema 2\ncategory A\ncategory B\nedge A B\nedge B All\n\nconstraint A: A\n"
    texts["lines.txt"] = '# note\u2028constraint A: A = "c"\nschema 1\ncategory A\nedge A All\nconstraint A: A = "b"\n'
    texts["a.csv"] = head + "a,A,a,all\n"
    texts["pairs.csv"] = "m1,m2,value\n2026-01-31,nobody,1\n"
    for name, text in texts.items():
        (room / name).write_text(text)
    certificate = str(EXAMPLES / "location" / "certificates" / "Country-short.txt")
    (room / "cut.txt").write_text("short certificate 1\nbottom Store\n")
    cases = (
        (("check", schema, str(EXAMPLES / "broken" / "instance.csv")), ("record of: s1 | Store | S1 | w;to", "below the City: w |", "below the City: to |")),
        (("check", schema, "two.csv"), ("record 3: usa | Country | x | all", "record 2: usa | Country | USA | all", "manual: ")),
        (("check", schema, "hostile.csv"), ("record 2: a\\nb | Store | <b>\\u202e | nowhere", 'no member has the id: nowhere, "x"', "manual: no member has that id")),
        (("check", schema, "none.csv"), ("record of: s | Store | s | ", "manual: X has no parent")),
        (("check", schema, "state.csv"), ("constraint 4: State: State.Country", "manual: the Nth constraint is false at X")),
        (("rollup", schema, instance, "facts.csv", "City"), ("record 2: usa | 1", "manual: the fact's member isn't of a bottom category")),
        (("retract", schema, instance, str(EXAMPLES / "location" / "store.csv"), str(EXAMPLES / "location" / "facts.csv")),
         ("record 2: s1 | 10", "manual: the value is the row's least or its greatest")),
        (("append", schema, instance, "facts.csv", "facts.csv"), ("record 1: member | value", "it must be: category,member,")),
        (("cube", "2", schema, "bad.txt", "City,A"), ("line 3: edge A all", "manual: the line has none of the forms")),
        (("cubeview", "2", calendar, schema, days, str(EXAMPLES / "broken" / "instance.csv"), "x", "Day,City"), ("below the City: w |", )),
        (("cube", "2", schema, calendar, "City"), ("word 5: City", "manual: the word of cube or cubeview isn't as many names")),
        (("cubeview", "2", calendar, schema, days, "two.csv", "x", "Day,City"), ("record 2: usa | Country | USA | all", "manual: ")),
        (("cubeview", "2", calendar, schema, days, instance, "facts.csv", "Day,City"), ("it must be: m1,m2,value", )),
        (("cubeview", "2", calendar, schema, days, instance, "pairs.csv", "Day,City"), ("record 2: ", "member of dimension 2: nobody", "manual: ")),
        (("format", "bad.txt"), ("line 3: edge A all", "manual: the line has none of the forms")),
        (("implies", schema, "Store", "Store.Town"), ("word 4: Store.Town", "manual: ")),
        (("verify", schema, certificate, "Country", "City"), ("line 1: short certificate 1",)),
        (("verify-short", schema, certificate, "Country", "State"), ("line 11: question",)),
        (("verify-short", schema, "cut.txt", "Country", "City"), ("the certificate ends too early",)),
        (("verify-short", schema, certificate, "Country", "City"), ()),
        (("summarizable", schema, "Country", "City"), ()),
        (("check", schema, instance), ()),
        (("format", "odd.txt"), ("line 8: constraint A: A", "column 16: a category alone says nothing")),
        (("check", "lines.txt", "a.csv"), ('constraint 1: A: A = "b"',)),
        (("implies", schema, "Store", "Store.City == 5"), ("column 13: there is no `==`",)),
        (("audit", schema), ("constraint 2: City: one(City_State, City_Province, City_Country)",
                             "constraint 6: State: State_Region ^ State_Country")),
        (("sumarizable", schema), ("the words are: olap summarizable SCHEMA TARGET SOURCE..",)),
        (("check", schema), ("the words are: olap check SCHEMA INSTANCE",)),
    )
    for words, wanted in cases:
        done = through_explain(room, *words)
        below = done.stdout.removeprefix(done.said)
        if done.returncode != done.status or not done.stdout.startswith(done.said) or (not wanted and below):
            yield f"explain {words}: status {done.returncode} of {done.status}, {done.stdout!r} {done.stderr!r}"
        yield from (f"explain {words}: it doesn't say {each!r}: {below!r}" for each in wanted if each not in below)
    for name in ("no such\nfile", "."):
        yield from one_line("explain of a file that can't be read", through_explain(room, "check", schema, name), 4)


def kinds_of(document: str, start: str, end: str) -> list[str]:
    """The kinds of faults that a part of docs/FORMATS.md names."""
    part = document.partition(start)[2].partition(end)[0]
    return sorted({kind for kind in re.findall(r"`([A-Z][A-Za-z0-9]+)`", part) if kind not in ("All", "TooLong") and not kind.isupper()})


# Where one kind is of several texts: a refusal, and words of the sentence on it.
SAID = (
    ("schema line 1 BadNumber", "compared with"), ("facts record 1 BadNumber", "of the right form"), ("word 2 BadNumber", "the seed"),
    ("word 3 BadNumber", "the size"), ("schema line 1 TextTooLong", "a string has too many"),
    ("instance record 1 TextTooLong", "an id or name"),
    ("schema line 1 UnknownCategory", "known on this line"), ("store record 1 UnknownCategory", "the schema has no category"),
    ("store record 1 DuplicateView", "has begun already"), ("word 5 DuplicateView", "an earlier category of store"),
    ("schema line 1 RootIsAll", "the root of a constraint"), ("word 3 RootIsAll", "the root of implies"),
    ("instance TooLong", "too many bytes"),
    ("schema line 1 BadForm", "none of the forms"), ("word 3 BadForm", "joined by commas"), ("frozen TooMany", "than are listed"),
    ("needs TooMany", "constraints or nodes"), ("shapes TooMany", "more shapes than are listed"),
)  # fmt: skip


def sentence_faults(room: Path) -> Iterator[str]:
    """For each text and kind of docs/FORMATS.md there is a sentence, and it is that of its own text."""
    document = (TOP / "docs" / "FORMATS.md").read_text()
    refusals = [f"schema line 1 {kind}" for kind in kinds_of(document, "\n### Faults, in the order", "\n### ")]
    for what, start in (("instance", "\n### Instance\n"), ("facts", "\n### Facts\n"), ("store", "\n### Stored views\n")):
        kinds = kinds_of(document, start, "\n### ")
        if len(kinds) < 3:
            yield f"explain: the kinds of {what} can't be read from docs/FORMATS.md"
        refusals += [f"{what} record 1 {kind}" for kind in kinds]
    refusals += [f"facts record 1 {kind}" for kind in kinds_of(document, "\n| command | kind | when |\n", "\n\n")]
    name = str(EXAMPLES / LOCATION)
    words = {"schema": ("format", name), "facts": ("rollup", name, name, name, "All"), "instance": ("check", name, name),
             "store": ("answer", name, name, name, "All"), "frozen": ("frozen", name, "Store")}
    for refusal, part in [*((each, "") for each in refusals), *SAID]:
        said = f"refused {refusal}\n"
        given = words.get(refusal.split(" ")[0], ("generate", "1", "1"))
        lines = list(explaining.explained(list(given), said))
        if not any(line.startswith("  manual: ") and part in line for line in lines):
            yield f"explain: of {said!r} it says {lines}"


def form_faults(room: Path) -> Iterator[str]:
    """Of each line of docs/SCHEMA.md that is BadForm a column is told; and what the program takes, the reader of forms takes too."""
    document = (TOP / "docs" / "SCHEMA.md").read_text()
    schema = ["schema 1", *(f"category {name}" for name in ("Store", "City", "State", "Country"))]
    lines = re.findall(r"^\| `([^`]*)` \| `line \d+ BadForm` \|", document, re.M)
    if len(lines) < 10:
        yield "explain: the lines that are BadForm can't be read from docs/SCHEMA.md"
    for line in lines:
        if form.why_bad([*schema, line.replace("&#124;", "|")], len(schema) + 1) is None:
            yield f"explain: no cause is told of `{line}`"
    for file in sorted([*TOP.glob("examples/**/*.txt"), *TOP.glob("recipes/**/*.txt")]):
        text = file.read_text()
        if olap("format", str(file))[0] == 0:
            for number, line in enumerate(text.split("\n"), 1):
                if line.strip() and not line.startswith(("#", "schema")) and form.why_bad(text.split("\n"), number):
                    yield f"explain: {file.name} is taken, and it finds fault with line {number}"


def changed_faults(room: Path) -> Iterator[str]:
    """Where a file changed after the refusal, a line says so."""
    schema, instance = str(EXAMPLES / LOCATION), str(EXAMPLES / "location" / "instance.csv")
    for said in ("schema line 999 BadForm", 'instance Constraint 99 "s1"', "instance record 999 UnknownParent", 'instance NoParent "gone"'):
        done = explained(room, f"refused {said}\n".encode(), "check", schema, instance)
        if done.returncode != 3 or "the file changed since the program read it" not in done.stdout or done.stderr:
            yield f"explain of a file that changed: {said}: {done.stdout!r} {done.stderr!r}"


def hear_interrupts() -> None:
    """As in a shell's foreground: what a script starts in the background ignores them, and so would all that it starts."""
    signal.signal(signal.SIGINT, signal.SIG_DFL)


def time_faults(room: Path) -> Iterator[str]:
    """What isn't asked in time is told; and Ctrl-C ends a tool at once, with nothing left."""
    schema = str(EXAMPLES / LOCATION)
    yield from one_line("compare in no time", tool("compare", schema, schema, "--seconds", "0", folder=room), 1)
    yield from one_line("least in no time", tool("least", schema, "Region", "--seconds", "-1", folder=room), 1)
    slow = room / "slow"
    slow.write_text(f'#!/bin/sh\n[ "$1" = format ] || {{ touch "$BEGAN"; exec sleep 60; }}\nexec "{find()}" "$@"\n')
    slow.chmod(0o755)
    for words in (("least", schema, "Region"), ("compare", schema, schema)):
        # A file of its own: what one tool started may still make its file while the next begins.
        began_file = room / f"began-{words[0]}"
        environment = {**os.environ, "OLAP": str(slow), "TMPDIR": str(room), "BEGAN": str(began_file)}
        running = subprocess.Popen([sys.executable, TOOLS / words[0], *words[1:]], cwd=room, env=environment, stdout=subprocess.DEVNULL,
                                   stderr=subprocess.PIPE, start_new_session=True, preexec_fn=hear_interrupts)
        while not began_file.exists() and running.poll() is None:
            time.sleep(0.02)
        running.send_signal(signal.SIGINT)
        began = time.monotonic()
        try:
            errors = running.communicate(timeout=30)[1].decode()
        except subprocess.TimeoutExpired:
            running.kill()
            errors = running.communicate()[1].decode()
        if running.returncode != 130 or errors or time.monotonic() - began > 10:
            yield f"Ctrl-C ends {words[0]} with {running.returncode} after {time.monotonic() - began:.0f} s: {errors.strip()[-200:]}"
    if left := [each for each in os.listdir(room) if each != "slow" and not each.startswith("began-")]:
        yield f"Ctrl-C leaves {left}"


def refusals(room: Path) -> Iterator[str]:
    """Each in one line, with nothing on standard output and no file left."""
    (room / "faulty.txt").write_text("schema 1\ncategory <&\n")
    schema, instance = str(EXAMPLES / LOCATION), str(EXAMPLES / "location" / "instance.csv")
    cases = [
        (4, "least", "no\nsuch", "City"), (3, "least", "faulty.txt", "City"), (3, "least", schema, "<Town>"),
        (4, "compare", "no\nsuch", schema), (3, "compare", schema, "faulty.txt"), (4, "compare", schema, str(room)),
        (4, "constants", "no\nsuch", instance), (4, "constants", schema, "-"), (3, "constants", schema, "faulty.txt"),
        (3, "constants", "faulty.txt", instance), (4, "propose", "no\nsuch"), (4, "propose", str(room)), (2, "explain", "none"),
    ]  # fmt: skip
    for status, name, *words in cases:
        if name == "explain":
            said = "refused schema line 1 BadForm\n"
            done = subprocess.run([sys.executable, TOOLS / name, *words], input=said, cwd=room, capture_output=True, text=True, check=False)
            done.stdout = done.stdout.removeprefix(said)
        else:
            done = tool(name, *words, folder=room)
        yield from one_line(f"{name} {words!r}", done, status)
    for name, *words in (("least", schema, "City"), ("compare", schema, schema), ("constants", schema, instance)):
        yield from one_line(f"{name} with no program", tool(name, *words, folder=room, OLAP=str(room / "none")), 70)
    for name, *words in (("least", schema, "Country"), ("propose", instance)):
        with open("/dev/full", "wb") as full:
            done = subprocess.run([sys.executable, TOOLS / name, *words], cwd=room, stdout=full, stderr=subprocess.PIPE, check=False)
        if done.returncode != 5 or len(done.stderr.splitlines()) != 1:
            yield f"{name} >/dev/full: status {done.returncode}, {done.stderr.decode()!r}"
    if sorted(os.listdir(room)) != ["faulty.txt"]:
        yield f"files are left: {os.listdir(room)}"


CHECKS = (least_faults, compare_faults, constants_faults, number_faults, propose_faults, made_faults, explain_faults,
          sentence_faults, form_faults, changed_faults, time_faults, refusals)


def faults() -> Iterator[str]:
    for check in CHECKS:
        with tempfile.TemporaryDirectory() as folder:
            yield from check(Path(folder))
