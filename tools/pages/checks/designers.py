"""The tools of tools/olap-tools that are its own do what they say: by sums that a database makes, by definitions, or by hand."""

import csv
import io
import sqlite3
import tempfile
from itertools import combinations
from pathlib import Path
from typing import Iterator

from .common import EXAMPLES, olap, tool

LOCATION = ("location/schema.txt", "location/instance.csv", "location/facts.csv")
BANDS = """schema 2
category Article
category Price number
category Band
edge Article Price
edge Price Band
edge Band All
constraint Price: Price < {cut} -> Price.Band = "low"
constraint Price: !Price < 100 -> Price.Band = "high"
"""
TABLE = """Store,City,State,Province,Country,Price,Note
s1,Washington,,,USA,10,
s2,Toronto,,Ontario,Canada,5,"a;b"
s3,Austin,Texas,,USA,-7,
s4,"Saint; John",,Quebec,Canada,1,
"""
WIDE = """id,category,name,parents
Store:s1,Store,s1,City:Washington
Store:s2,Store,s2,City:Toronto
Store:s3,Store,s3,City:Austin
Store:s4,Store,s4,City:Saint%3B John
City:Washington,City,Washington,Country:USA
City:Toronto,City,Toronto,Province:Ontario
City:Austin,City,Austin,State:Texas
City:Saint%3B John,City,Saint; John,Province:Quebec
State:Texas,State,Texas,Country:USA
Province:Ontario,Province,Ontario,Country:Canada
Province:Quebec,Province,Quebec,Country:Canada
Country:USA,Country,USA,all
Country:Canada,Country,Canada,all
"""


def rows_of(text: str) -> list[list[str]]:
    return list(csv.reader(io.StringIO(text, newline="")))[1:]


def told(name: str, done, status: int, output: str | None) -> Iterator[str]:
    if done.returncode != status or (output is not None and done.stdout != output):
        yield f"olap-tools {name}: status {done.returncode} with {done.stdout[:300]!r} {done.stderr[:200]!r}"


def sql_faults() -> Iterator[str]:
    """What the statement makes of the sources' roll-ups is the target's roll-up."""
    base = sqlite3.connect(":memory:")
    base.execute("create table member (id text, category text)")
    base.execute("create table lies_in (child text, parent text)")
    for one, category, _, parents in rows_of((EXAMPLES / LOCATION[1]).read_text()):
        base.execute("insert into member values (?, ?)", (one, category))
        base.executemany("insert into lies_in values (?, ?)", [(one, parent) for parent in parents.split(";")])
    for source in ("City", "State", "Province"):
        base.execute(f"create table v_{source} (member text, count integer, sum integer, least integer, greatest integer)")
        base.executemany(f"insert into v_{source} values (?, ?, ?, ?, ?)", rows_of(olap("rollup", *LOCATION, source)[1]))
    for target, sources in (("Country", ["City"]), ("Region", ["State", "Province"]), ("All", ["City"])):
        done = tool("olap-tools", "sql", LOCATION[0], target, *sources)
        yield from told(f"sql {target}", done, 0, None)
        base.executescript(done.stdout)
        found = sorted([str(each) for each in row] for row in base.execute(f"select * from v_{target}"))
        if found != sorted(rows_of(olap("rollup", *LOCATION, target)[1])):
            yield f"olap-tools sql: the view of {target} in the database isn't the roll-up: {found}"
    done = tool("olap-tools", "sql", LOCATION[0], "Country", "State", "Province")
    if done.returncode != 1 or not done.stdout.startswith("-- Country from State Province: olap says no\n") or "create" in done.stdout:
        yield "olap-tools sql: a no isn't refused"


def keep_faults() -> Iterator[str]:
    """The views that are kept have the fewest rows of all that are enough."""
    members = rows_of((EXAMPLES / LOCATION[1]).read_text())
    sizes = {"All": 1}
    for row in members:
        sizes[row[1]] = sizes.get(row[1], 0) + 1
    targets = ["Country", "Region"]

    def serves(kept: tuple[str, ...]) -> bool:
        lists = [some for size in range(1, len(kept) + 1) for some in combinations(kept, size)]
        return all(any(olap("summarizable", LOCATION[0], target, *some)[0] == 0 for some in lists) for target in targets)

    least = min(
        sum(sizes[each] for each in kept)
        for size in range(1, 4)
        for kept in combinations(("City", "State", "Province", "Region", "Country"), size)
        if serves(kept)
    )
    done = tool("olap-tools", "keep", *LOCATION[:2], *targets)
    if f": at most {least} rows;" not in done.stdout:
        yield f"olap-tools keep: {least} rows are enough, and it says {done.stdout!r} {done.stderr!r}"


def bands_faults(folder: Path) -> Iterator[str]:
    cases = (
        (99, 'Price: with 99 a member may have any other name in Band\n'),
        (100, ""),
        (102, "Price: no member may have 100 to 101\n"),
    )
    for cut, output in cases:
        (folder / "bands.txt").write_text(BANDS.format(cut=cut))
        yield from told(f"bands, below {cut}", tool("olap-tools", "bands", str(folder / "bands.txt")), 1 if output else 0, output)


def apart_faults(table: Path) -> Iterator[str]:
    """A week in two years is a fault, unless it is said that weeks don't lie in years; days do all the same."""
    table.write_text("Day,Week,Year\n1,w1,2018\n2,w2,2018\n3,w2,2019\n4,w3,2019\n")
    words = ("wide", str(table), "Day", "Week", "Year")
    done = tool("olap-tools", *words)
    if done.returncode != 1 or done.stdout or not done.stderr.endswith(". If Year isn't above Week, say --apart Week:Year\n"):
        yield f"olap-tools wide, a week in two years: status {done.returncode}, {done.stderr[:200]!r}"
    parents = {row[0]: row[3] for row in rows_of(tool("olap-tools", *words, "--apart", "Week:Year").stdout)}
    if parents.get("Day:3") != "Week:w2;Year:2019" or parents.get("Week:w2") != "all":
        yield f"olap-tools wide --apart: {parents}"
    yield from told("wide --apart, turned round", tool("olap-tools", *words, "--apart", "Year:Week"), 2, "")


def wide_faults(folder: Path) -> Iterator[str]:
    table = folder / "table.csv"
    levels = ["Store", "City", "State", "Province", "Country"]
    table.write_text("\ufeff" + TABLE, encoding="utf-8")
    yield from told("wide", tool("olap-tools", "wide", str(table), *levels), 0, WIDE)
    facts = "member,value\nStore:s1,10\nStore:s2,5\nStore:s3,-7\nStore:s4,1\n"
    yield from told("wide --facts", tool("olap-tools", "wide", str(table), *levels, "--facts", "Price"), 0, facts)
    dirty = {
        "a city in two provinces": (TABLE + "s5,Toronto,,Quebec,Canada,1,\n", "City Toronto lies in several of Province"),
        "no store": (TABLE + ",Toronto,,Ontario,Canada,1,\n", "record 6 has no Store"),
        "a field too few": (TABLE + "s5,Toronto,,Ontario,Canada,1\n", "record 6 has 6 fields"),
    }
    for what, (text, wanted) in dirty.items():
        table.write_text(text, encoding="utf-8")
        done = tool("olap-tools", "wide", str(table), *levels)
        if done.returncode == 0 or done.stdout or wanted not in done.stderr:
            yield f"olap-tools wide, {what}: status {done.returncode}, {done.stdout[:80]!r}, {done.stderr[:200]!r}"
    yield from apart_faults(table)
    table.write_text(TABLE.replace("10,", "1.5,"), encoding="utf-8")
    done = tool("olap-tools", "wide", str(table), *levels, "--facts", "Price")
    if done.returncode != 1 or done.stdout or "record 2 has no whole number in Price: 1.5" not in done.stderr:
        yield f"olap-tools wide --facts: {done.returncode}, {done.stdout[:80]!r}, {done.stderr[:200]!r}"
    yield from told("wide, a heading that is no name", tool("olap-tools", "wide", str(table), "Store", "Sales price"), 2, "")


AFTER_NO = """members: 1 reach Country by none of the sources, or by several
  lost at usa: 1 of Store by way of City Country, as s1: 1 facts, sum 10
sources: no list with up to 3 more is enough; in those that have what is lost, a fact counts twice
split: after `olap-tools split SCHEMA City`, Country from State Province CityCountry is enough
needed: the weakest constraints with which the answer is yes:
  constraint Store: (Store.Country -> one(Store.State.Country, Store.Province.Country))   (Constraint {number} "s1" in your instance)
simple: constraint Store: Store.State ^ Store.Province   (Constraint {number} "s1" in your instance)
"""


def after_no_faults() -> Iterator[str]:
    """A no by a store in Washington: what is lost, that no source helps, and what would."""
    number = 1 + sum(line.startswith("constraint") for line in (EXAMPLES / LOCATION[0]).read_text().splitlines())
    done = tool("olap-tools", "after-no", *LOCATION, "Country", "State", "Province")
    yield from told("after-no", done, 0, AFTER_NO.format(number=number))
    yield from told("after-no of a yes", tool("olap-tools", "after-no", LOCATION[0], "Country", "City"), 0, "yes: nothing needs to be added\n")
    yield from told("after-no without a target", tool("olap-tools", "after-no", *LOCATION), 2, "")
    done = tool("olap-tools", "after-no", LOCATION[0], "Country", "State", "City")
    if "sources: no further ones help, for these have a fact 2 times\n" not in done.stdout or "constraint Store: (Store.Country -> one(" not in done.stdout:
        yield f"olap-tools after-no: {done.stdout!r} {done.stderr!r}"
    yield from many_faults()


WEEKS = """schema 1
category Day
category Week
category Month
category Year
edge Day Week
edge Day Month
edge Month Year
edge Week All
edge Year All
"""


def many_faults() -> Iterator[str]:
    """Months of which none has a week: they are told by the largest, and that no constraint helps but by leaving no day."""
    months = range(1, 13)
    members = [f"d{month}x{day},Day,d,m{month};w" for month in months for day in range(month)]
    rows = ["id,category,name,parents", *members, *(f"m{month},Month,m,y{month}" for month in months), *(f"y{month},Year,y,all" for month in months)]
    with tempfile.TemporaryDirectory() as folder:
        files = [str(Path(folder) / name) for name in ("schema.txt", "instance.csv")]
        for file, text in zip(files, (WEEKS, "\n".join([*rows, "w,Week,w,all", ""]))):
            Path(file).write_text(text)
        lines = tool("olap-tools", "after-no", *files, "Year", "Week").stdout.splitlines()
    if lines[:2] != ["members: 78 reach Year by none of the sources, or by several",
                     "  lost at y12: 12 of Day by way of Week Month Year, as d12x0"] or \
            lines[11:12] != ["  lost in smaller groups, at 2 of Year: 3, as d2x0"] or len([line for line in lines if "lost" in line]) != 11:
        yield f"olap-tools after-no, of many groups: {lines}"
    if not any(line.startswith("  constraint Day: ") and line.endswith("   (then no Day reaches Year)") for line in lines) or \
            any(line.startswith("simple: ") for line in lines):
        yield f"olap-tools after-no, of what leaves no day: {lines}"


def split_faults(folder: Path) -> Iterator[str]:
    """The members are legal in the schema with kinds, the totals stay, and each kind has totals of its own."""
    made = folder / "made"
    done = tool("olap-tools", "split", LOCATION[0], "City", LOCATION[1], "--into", str(made))
    yield from told("split", done, 0, "")
    files = (str(made / "schema.txt"), str(made / "instance.csv"), LOCATION[2])
    if olap("check", *files[:2]) != olap("check", *LOCATION[:2]):
        yield f"olap-tools split: {olap('check', *files[:2])}"
    for target in ("Country", "Region", "Store"):
        if olap("rollup", *files, target) != olap("rollup", *LOCATION, target):
            yield f"olap-tools split: the totals by {target} differ"
    kinds = [olap("rollup", *files, kind)[1].splitlines()[1:] for kind in ("CityCountry", "CityState", "CityProvince")]
    if sorted(sum(kinds, [])) != sorted(olap("rollup", *LOCATION, "City")[1].splitlines()[1:]):
        yield f"olap-tools split: the totals of the kinds aren't those of the cities: {kinds}"
    yield from told("split into a folder that is there", tool("olap-tools", "split", *LOCATION[:1], "City", LOCATION[1], "--into", str(made)), 5, "")


def faults() -> Iterator[str]:
    yield from after_no_faults()
    yield from sql_faults()
    yield from keep_faults()
    with tempfile.TemporaryDirectory() as name:
        yield from bands_faults(Path(name))
        yield from wide_faults(Path(name))
        yield from split_faults(Path(name))
