"""The manuals have no warning, and none is too long; the two of the program say what docs/COMMANDS.md and docs/FORMATS.md say, and
its transcripts are what the program prints; that of the tools has each command."""

import re
import shlex
import subprocess
from typing import Iterator

from .common import EXAMPLES, TOP, is_there, not_run, olap, tool

COMMANDS, FORMATS = TOP / "man" / "olap.1", TOP / "man" / "olap.5"
OF_TOOLS = TOP / "man" / "olap-tools.1"
PAGES = (COMMANDS, FORMATS, OF_TOOLS)
MOST_LINES = 350  # of a page as a terminal of 80 columns shows it
SHOWN = ["groff", "-mandoc", "-Tutf8", "-rLL=80n", "-rcR=1"]
LINTERS = (("groff", "groff", ["groff", "-man", "-ww", "-z"]), ("mandoc", "mandoc", ["mandoc", "-Tlint"]))


def lint_faults() -> Iterator[str]:
    for name, package, words in LINTERS:
        if not is_there(name, package):
            not_run(f"{name} isn't there (Debian's package {package}), so the manuals weren't read by it")
            continue
        for page in PAGES:
            done = subprocess.run([*words, page], capture_output=True, text=True, check=False)
            told = (done.stdout + done.stderr).strip()
            if told or done.returncode != 0:
                yield f"{name} of {page.name}: {told.splitlines()[0] if told else f'status {done.returncode}'}"


def length_faults() -> Iterator[str]:
    if not is_there("groff", "groff"):
        not_run("groff isn't there (Debian's package groff), so the manuals' lines weren't counted")
        return
    for page in PAGES:
        shown = subprocess.run([*SHOWN, page], capture_output=True, text=True, check=False).stdout.splitlines()
        if not 50 < len(shown) <= MOST_LINES:
            yield f"{page.name} has {len(shown)} lines as it is shown, and may have {MOST_LINES}"


def plain(text: str) -> str:
    """The words of a manual's text, without its macros and fonts."""
    text = re.sub(r"\\f[A-Z]|\\&", "", text).replace("\\-", "-").replace("\\(aq", "'").replace("\\(dq", '"').replace("\\e", "\\")
    lines = [re.sub(r"^\.(B|I|BR|BI|IR|IB|RB|TP|SS|SH|PP|EX|EE) ?", "", line) for line in text.splitlines()]
    return " ".join(re.sub(r'[",]', "", " ".join(lines)).split())


def said_faults() -> Iterator[str]:
    """Commands, statuses, kinds of faults and limits of the document stand in the manual."""
    pages = ("COMMANDS.md", "FORMATS.md", "CERTIFICATES.md")
    document = "\n".join((TOP / "docs" / page).read_text() for page in pages)
    commands_page, formats_page = plain(COMMANDS.read_text()), plain(FORMATS.read_text())
    table = document.partition("## Commands and statuses")[2].partition("\n## ")[0]
    commands = re.findall(r"^\| `([a-z-]+ [A-Z .]+?)(?:\.\.)?` \|.*\|$", table, re.M)
    for command in commands:
        if plain(command) not in commands_page:
            yield f"olap.1: no command {command}"
    yield from limit_faults()
    yield from status_faults(table)
    kinds = {kind for each in re.findall(r"`([^`\n]*)`", document) for kind in re.findall(r"\b[A-Z][a-z]+[A-Z][A-Za-z0-9]*\b", each)}
    refusals = set(re.findall(r"^\| `refused (?:\w+ )*?([A-Z][a-z]+[A-Za-z]*)`", document, re.M))
    for kind in sorted(kinds | refusals | {"Stratification", "Partitioning", "Shortcut", "Constraint", "Connectivity", "NoParent"}):
        if not re.search(rf"\b{kind}\b", formats_page):
            yield f"olap.5: no {kind}"


def tools_faults() -> Iterator[str]:
    """The manual of the tools has the commands that they list, each with its words and a head of its own."""
    listed = re.findall(r"^  ([a-z-]+) +\S", tool("olap-tools", "--help").stdout, re.M)
    text = OF_TOOLS.read_text()
    synopsis, _, below = text.partition("\n.SH DESCRIPTION\n")
    worded = re.findall(r"olap-tools ([a-z][a-z-]*)", synopsis.partition(".SH SYNOPSIS")[2].replace("\\-", "-"))
    headed = re.findall(r"^\.TP\n\.B ([a-z-]+)$", below.replace("\\-", "-"), re.M)
    if len(listed) < 10 or not listed == worded == headed:
        yield f"the tools list {listed}, its synopsis has {worded}, and its commands are {headed}"


def limit_faults() -> Iterator[str]:
    """Each limit of the manual, by its number and the first word of what it is of, is one of docs/FORMATS.md, and the other way."""
    rows = (TOP / "docs" / "FORMATS.md").read_text().partition("\n## Limits\n")[2].partition("\n## ")[0]
    wanted = {(number, what.split(" ")[0]) for what, number in re.findall(r"^\| ([a-z][^|]*) \| ([0-9,]+)(?:;[^|]*)? \|$", rows, re.M)}
    lines = FORMATS.read_text().partition("\n.SH LIMITS\n")[2].partition("\n.fi\n")[0]
    told = set(re.findall(r"^([0-9,]+) ([a-z]+)", lines, re.M))
    if len(wanted) < 10:
        yield "the limits of docs/FORMATS.md can't be read"
    yield from (f"olap.5: no limit of {number} {what}" for number, what in sorted(wanted - told))
    yield from (f"olap.5: no page has the limit of {number} {what}" for number, what in sorted(told - wanted))


def status_faults(table: str) -> Iterator[str]:
    """The statuses of a done command are those with which examples/runs.txt has it end; and what a status means is said alike."""
    ends: dict[str, set[str]] = {}
    for status, command in re.findall(r"^(\d) \S+ ([a-z-]+) ", (EXAMPLES / "runs.txt").read_text(), re.M):
        ends.setdefault(command, set()).add(status)
    rows = re.findall(r"^\| `([a-z-]+) [^`]*` \|[^|]*\| ([^|]*) \|$", table, re.M)
    if len(rows) < 15:
        yield "the table of commands can't be read"
    for command, said in rows:
        documented, seen = set(re.findall(r"\d", said)), ends.get(command, set()) & {"0", "1"}
        # What prove writes for a yes isn't compared there.
        if documented - ({"0"} if command.startswith("prove") else set()) != seen - ({"0"} if command.startswith("prove") else set()):
            yield f"docs/COMMANDS.md: the statuses of {command} are {sorted(documented)}, and examples/runs.txt has {sorted(seen)}"
    part = COMMANDS.read_text().partition("\n.SH EXIT STATUS\n")[2].partition("\n.SH ")[0]
    told = dict(re.findall(r"^\.TP\n\.B (\d)\n((?:(?!\.(?:TP|PP)\b).*\n)*)", part, re.M))
    for status, comes in re.findall(r"^\| (\d) \| ([^|]*) \|[^|]*\|$", table, re.M):
        if not plain(told.get(status, "")).startswith(plain(comes)):
            yield f"olap.1: status {status} is {plain(told.get(status, ''))!r}, and docs/COMMANDS.md has {comes!r}"


def transcripts() -> Iterator[tuple[str, str]]:
    for block in re.findall(r"^\.EX\n(\$ olap .*?)^\.EE$", COMMANDS.read_text(), re.M | re.S):
        text = block.replace("\\-", "-").replace("\\(aq", "'")
        for command, below in re.findall(r"^\$ olap (.*)\n((?:(?!\$ ).*\n)*)", text, re.M):
            yield command, below


def transcript_faults() -> Iterator[str]:
    found = list(transcripts())
    if not found:
        yield "olap.1: no transcripts"
    for command, below in found:
        if olap(*shlex.split(command), folder=EXAMPLES / "location")[1] != below:
            yield f"olap.1: what this prints isn't what stands there: olap {command}"


def faults() -> Iterator[str]:
    for check in (lint_faults, length_faults, said_faults, transcript_faults):
        yield from (f"man: {wrong}" for wrong in check())
    yield from (f"man: olap-tools.1: {wrong}" for wrong in tools_faults())
