"""Bad input is reported in one line with a status that isn't 0 and leaves nothing, and odd names come through unharmed."""

import json
import os
import shutil
import stat
import subprocess
import sys
import tempfile
import time
import xml.etree.ElementTree as ET
from pathlib import Path
from typing import Iterator

from .common import EXAMPLES, IN_TIME, TOOLS, page_of, picture_faults, picture_of, pictures_of_page, tool
from ..program import find

LOCATION = str(EXAMPLES / "location" / "schema.txt")
BROKEN_HEADER = str(EXAMPLES / "location" / "facts.csv")
NAME = "-it's \"a\" <b>&amp;;\n\\N --x.txt"
TEXT = """schema 1
# <script>alert("1")</script> </style> & &amp; 'quotes' ]]> -->
category Store
category City
edge Store City
edge City All
constraint Store: Store.City = "</text><script>&amp;\\"\\\\N;'--" -> Store = "-x"
"""
MEMBERS = [
    ("-x", 'a "quoted" <b>&amp; name; \\N'),
    ("two\nlines", "line\nbreak"),
    ("<script>alert(1)</script>", "'; DROP TABLE x; --"),
    ("]]>", "-->"),
    ("$(touch ran)", "\u202eturned"),
]


LIAR = """#!{python}
import subprocess, sys
done = subprocess.run([{program}, *sys.argv[1:]], capture_output=True)
sys.stdout.buffer.write(done.stdout.replace(b" none\\n", b" 2\\n"))
sys.stdout.flush()
sys.exit(done.returncode)
"""


def odd_files(room: Path) -> None:
    (room / NAME).write_text(TEXT)
    rows = [f'"{id}",Store,"{name}",c&\n' for id, name in ((id.replace('"', '""'), name.replace('"', '""')) for id, name in MEMBERS)]
    (room / "-i.csv").write_text("id,category,name,parents\n" + "".join(rows) + "c&,City,Rome,all\n")


def shown(text: str) -> str:
    return text.replace("\n", "\u21b5").replace("\u202e", "\ufffd")


def odd_names(room: Path) -> Iterator[str]:
    """Texts that would be markup, options, or commands stand in pictures and page as they are."""
    odd_files(room)
    done = tool("draw", "instance", "--", NAME, "-i.csv", folder=room)
    if done.returncode != 0:
        yield f"draw instance: {done.stderr.strip()}"
    else:
        svg = ET.fromstring(done.stdout)
        yield from picture_faults(svg)
        texts = set(picture_of(svg).nodes.values())
        for id, name in MEMBERS:
            if f'Store{shown(id)}"{shown(name)}"' not in texts:
                yield f"draw instance: the member {id!r} isn't there as it is"
    done = tool("draw", "instance", "--above=-x", "--", NAME, "-i.csv", folder=room)
    if done.returncode != 0 or len(picture_of(ET.fromstring(done.stdout)).nodes) != 3:
        yield f"draw instance --above=-x: {done.stderr.strip()}"
    for words in (("schema",), ("frozen", "--number=1"), ("implies",)):
        rest = {"frozen": ("Store",), "implies": ("Store", 'Store = "<&\'"')}.get(words[0], ())
        done = tool("draw", *words, "--", NAME, *rest, folder=room)
        yield from picture_faults(ET.fromstring(done.stdout)) if done.returncode == 0 else [f"draw {words[0]}: {done.stderr.strip()}"]
    done = tool("report", "--", NAME, folder=room)
    top, wrong = page_of(done.stdout)
    yield from [*wrong, *(each for svg in pictures_of_page(done.stdout) for each in picture_faults(svg))]
    if done.returncode != 0 or [line.text() for text in top.all("ol") for line in text.all("li")] != TEXT.splitlines():
        yield f"report: its text isn't the schema's; status {done.returncode}: {done.stderr.strip()}"
    if top.all("script") or not any(shown(NAME) in head.text() for head in top.all("h1")):
        yield "report: a name is markup, or isn't there"
    if sorted(os.listdir(room)) != sorted([NAME, "-i.csv"]):
        yield f"files are left: {os.listdir(room)}"


def one_line(what: str, done, *statuses: int) -> Iterator[str]:
    lines = done.stderr.splitlines()
    if done.returncode not in statuses or done.stdout or len(lines) != 1 or not lines[0].startswith(what.split()[0] + ": "):
        yield f"{what}: status {done.returncode}, {done.stderr.strip()!r}"


def refusals(room: Path) -> Iterator[str]:
    """Each in one line; and a file that was there before stays as it was."""
    kept = room / "kept"
    kept.write_text("kept\n")
    (room / "faulty.txt").write_text("schema 1\ncategory <&\n")
    to_kept = ("-o", str(kept))
    cases = [
        (4, "draw", "schema", "no\nsuch", *to_kept),
        (4, "draw", "schema", str(room), *to_kept),
        (3, "draw", "schema", "faulty.txt", *to_kept),
        (3, "draw", "frozen", LOCATION, "<Town>", "--number=1", *to_kept),
        (1, "draw", "frozen", LOCATION, "Store", "--number=99", *to_kept),
        (1, "draw", "frozen", LOCATION, "Store", *to_kept),
        (5, "draw", "frozen", LOCATION, "Store", "--folder", "no/such"),
        (3, "draw", "instance", LOCATION, BROKEN_HEADER, *to_kept),
        (1, "draw", "instance", LOCATION, str(EXAMPLES / "location" / "instance.csv"), "--above=;", *to_kept),
        (1, "draw", "instance", LOCATION, str(EXAMPLES / "location" / "instance.csv"), "--most=3", *to_kept),
        (1, "draw", "summarizable", LOCATION, "Country", "City", *to_kept),
        (3, "draw", "summarizable", LOCATION, "Country", "City", "City", *to_kept),
        (3, "draw", "implies", LOCATION, "Store", "Store = '\n'", *to_kept),
        (5, "draw", "schema", LOCATION, "-o", "no/such/file"),
        (5, "draw", "schema", LOCATION, "-o", str(room)),
        (4, "report", "no\nsuch", *to_kept),
        (4, "report", LOCATION, "--instance", "no\nsuch", *to_kept),
        (3, "report", LOCATION, "--instance", "faulty.txt", *to_kept),
        (2, "report", LOCATION, "--facts", "faulty.txt", *to_kept),
        (2, "report", LOCATION, LOCATION, "--instance", "faulty.txt", *to_kept),
        (4, "report", LOCATION, "no\nsuch", *to_kept),
        (3, "report", LOCATION, "faulty.txt", *to_kept),
        (2, "report", *[LOCATION] * 5, *to_kept),
        (3, "report", "faulty.txt", *to_kept),
        (3, "report", BROKEN_HEADER, *to_kept),
        (5, "report", str(EXAMPLES / "chain" / "schema.txt"), "-o", "no/such/file"),
        (5, "install", "kept/no/such/prefix"),
        (1, "install", "--remove", "no/such/prefix"),
        (5, "install", "kept"),
    ]
    for status, name, *words in cases:
        yield from one_line(f"{name} {' '.join(words)!r}", tool(name, *words, folder=room), status)
    for name, words in (("draw", ("schema", LOCATION)), ("report", (LOCATION,)), ("install", ("p",))):
        yield from one_line(f"{name} with no program", tool(name, *words, folder=room, OLAP=str(room / "none")), 70)
    (room / "path").mkdir()
    without = {"folder": room, "PATH": str(room / "path"), "OLAP": str(find())}
    yield from one_line("draw without Graphviz", tool("draw", "schema", LOCATION, *to_kept, **without), 70)
    done = tool("report", str(EXAMPLES / "chain" / "schema.txt"), **without)
    if done.returncode != 0 or len(done.stderr.splitlines()) != 1 or "<svg" in done.stdout or not done.stdout.endswith("</html>\n"):
        yield f"report without Graphviz: status {done.returncode}, {done.stderr!r}"
    shutil.rmtree(room / "path")
    if kept.read_text() != "kept\n" or sorted(os.listdir(room)) != ["faulty.txt", "kept"]:
        yield f"files are left or changed: {os.listdir(room)}"


def odd_outputs(room: Path) -> Iterator[str]:
    """An output that is a pipe or a device is written into and stays what it is, and a link stays a link."""
    (room / "link").symlink_to("behind")
    os.mkfifo(room / "pipe")
    wanted = tool("draw", "schema", LOCATION).stdout
    done = tool("draw", "schema", LOCATION, "-o", "link", folder=room)
    if done.returncode != 0 or not (room / "link").is_symlink() or (room / "behind").read_text() != wanted:
        yield f"draw -o LINK: status {done.returncode}, {done.stderr!r}, {os.listdir(room)}"
    reader = subprocess.Popen(["cat", room / "pipe"], stdout=subprocess.PIPE)
    done = tool("draw", "schema", LOCATION, "-o", "pipe", folder=room)
    if done.returncode != 0 or not (room / "pipe").is_fifo() or reader.communicate()[0].decode() != wanted:
        yield f"draw -o PIPE: status {done.returncode}, {done.stderr!r}"
    reader.kill()
    reader.wait()
    try:
        os.mknod(room / "null", 0o666 | stat.S_IFCHR, os.makedev(1, 3))
        (room / "null").write_text("")
    except OSError:
        return  # no right to make a device, or to write to one here
    done = tool("draw", "schema", LOCATION, "-o", "null", folder=room)
    if done.returncode != 0 or not (room / "null").is_char_device():
        yield f"draw -o DEVICE: status {done.returncode}, {done.stderr!r}"


def many_ways(room: Path) -> Iterator[str]:
    """A violation above which there are more ways than can be walked is drawn at once."""
    levels = [f"L{level}" for level in range(26)]
    edges = zip(["S", *levels], [*levels, "T"])
    text = "schema 1\n" + "".join(f"category {name}\n" for name in ("S", *levels, "T"))
    text += "".join(f"edge {one} {two}\n" for one, two in edges)
    (room / "schema.txt").write_text(text + "edge T All\n")
    rows = ["id,category,name,parents", "s,S,s,L0a;L0b"]
    for level, above in zip(levels, [*levels[1:], "T"]):
        rows += [f"{level}{each},{level},x,{above}a;{above}b" for each in "ab"]
    (room / "instance.csv").write_text("\n".join([*rows, "Ta,T,x,all", "Tb,T,x,all", ""]))
    began = time.monotonic()
    done = tool("draw", "instance", "schema.txt", "instance.csv", folder=room)
    if done.returncode != 0 or time.monotonic() - began > 60:
        yield f"draw instance of many ways: status {done.returncode} after {time.monotonic() - began:.0f} s, {done.stderr!r}"


def full_output(room: Path) -> Iterator[str]:
    """Standard output that takes nothing."""
    for words in (("draw", "schema", LOCATION), ("report", str(EXAMPLES / "chain" / "schema.txt"))):
        with open("/dev/full", "wb") as full:
            done = subprocess.run([sys.executable, TOOLS / words[0], *words[1:]], cwd=room, stdout=full, stderr=subprocess.PIPE, check=False)
        if done.returncode != 5 or len(done.stderr.splitlines()) != 1:
            yield f"{words[0]} >/dev/full: status {done.returncode}, {done.stderr.decode()!r}"


def lies(room: Path) -> Iterator[str]:
    """Where the program says other sums than the instance that it shows, nothing is drawn and no page is made."""
    liar = room / "liar"
    liar.write_text(LIAR.format(python=sys.executable, program=json.dumps(str(find()))))
    liar.chmod(0o755)
    for words in (("draw", "summarizable", LOCATION, "Country", "State"), ("report", *IN_TIME, str(EXAMPLES / "chain" / "schema.txt"))):
        yield from one_line(f"{words[0]} of a program that lies", tool(*words, folder=room, OLAP=str(liar)), 70)


def faults() -> Iterator[str]:
    for check in (odd_names, refusals, odd_outputs, many_ways, full_output, lies):
        with tempfile.TemporaryDirectory() as folder:
            yield from (f"bad input: {wrong}" for wrong in check(Path(folder)))
