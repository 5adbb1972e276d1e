"""Each command of README.md, docs/ and recipes/ does what stands there.

A transcript is a block of indented lines, or one between lines of three backticks. Its commands begin with `$ `, and what stands
below one, up to the next command or the block's end, is what it prints, word for word; if a line ends in `&&` or a backslash,
the command goes on in the next. A line that begins with `./olap ` is a command too, which must end with status 0. All run in a
shell, in a folder that has all that is at the top, with the program that is built in the place of ./olap and ./olap-unproved,
and is taken away; what one command of a document writes is there for those below it. Those of recipes are run by
tools/check-recipes.
"""

import os
import re
import shutil
import subprocess
import tempfile
from pathlib import Path

from . import sources

PROGRAM = sources.CRATES / "olap_cli" / "out" / "olap_cli"
MARK, BARE = "$ ", "./olap "
GOES_ON = ("&&", "\\")
OF_RECIPES = re.compile(r"\brecipes/\w+/run\b")
OWN = "\n## On your own tables\n"  # what stands below this, tools/check-recipes runs
KEPT = ("README.md", "docs", "examples", "recipes", "tools", "man", "completions")


def blocks(text):
    """The lines of each block of a document, without what sets it off."""
    block, fenced = [], False
    for line in [*text.splitlines(), ""]:
        if line.startswith("```"):
            fenced = not fenced
        elif fenced or line.startswith("    "):
            block.append(line if fenced else line[4:])
            continue
        if block:
            yield block
            block = []


def commands(text, start=MARK):
    """Each command of a document that begins so, with the lines that stand below it."""
    for block in blocks(text):
        command, below = None, []
        for line in [*block, start]:
            if command is not None and not below and command.endswith(GOES_ON):
                command += "\n" + line
                continue
            if not line.startswith(start):
                below.append(line)
                continue
            if command is not None:
                yield command, "".join(each + "\n" for each in below)
            command, below = line, []


def asked(text):
    """Each command that is run here, and what it prints; None where only the status is judged."""
    for command, below in commands(text):
        if not OF_RECIPES.search(command):
            yield command.removeprefix(MARK), below
    for block in blocks(text.partition(OWN)[0]):
        yield from ((line, None) for line in block if line.startswith(BARE))


def run(folder, command):
    """The status and the output of a command that is run by a shell in this folder."""
    environment = {**os.environ, "OLAP": str(folder / "olap")}
    words = ["bash", "-c", command]
    done = subprocess.run(words, cwd=folder, env=environment, stdin=subprocess.DEVNULL, capture_output=True, timeout=120, check=False)
    return done.returncode, done.stdout.decode(errors="replace")


def put(folder):
    """A copy of all that documents speak of, with the program in the place of ./olap and ./olap-unproved."""
    for name in KEPT:
        place = sources.TOP / name
        copy = shutil.copytree if place.is_dir() else shutil.copy
        copy(place, folder / name)
    for name in ("olap", "olap-unproved"):
        (folder / name).symlink_to(program())


def program():
    """The program that is built, or the one that the variable OLAP names."""
    return Path(shutil.which(os.environ.get("OLAP", "")) or PROGRAM).resolve()


def faults():
    places = ("README.md", "docs/**/*.md", "recipes/**/*.md")
    documents = [document for place in places for document in sorted(sources.TOP.glob(place))]
    found = {document: list(asked(document.read_text())) for document in documents}
    if not program().exists():
        count = sum(map(len, found.values()))
        yield PROGRAM, f"not built, so the {count} commands of README.md, docs/ and recipes/ were not run"
        return
    for document in (each for each in documents if found[each]):
        with tempfile.TemporaryDirectory() as name:
            put(Path(name))
            for command, wanted in found[document]:
                status, output = run(Path(name), command)
                if wanted is None and status != 0:
                    yield document, f"this ends with status {status}: {command}"
                elif wanted is not None and output != wanted:
                    yield document, f"what this prints is not what stands there: {command}"
