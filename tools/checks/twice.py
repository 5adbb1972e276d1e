"""No statement of a lemma is written down anew: those that stand in two places of proofs/ don't become more.

Two statements are the same if they differ in the names of bound variables alone. From the folder tools, `python3 -m checks.twice`
prints those that stand twice, and with `--set` writes down how many there are today.
"""

import re
import sys
from collections import defaultdict
from pathlib import Path

from . import sources

MOST = 62  # how many statements stand elsewhere already; only to be lowered

START = re.compile(r"^(?:(?:abbrev|unfoldable|pub|private) )*([^\s:(){}]+) :(?: |$)(.*)")
BOUND = re.compile(r"[({]\s*((?:[^\s(){}:]+\s+)+):|λ\s+((?:[^\s.(){}]+\s*)+)\.|let ([^\s=]+) =")


def statements(file):
    """The names of a file's lemmas and definitions that aren't indented, with their statements."""
    name, lines = None, []
    for line in [*file.read_text().splitlines(), ""]:
        if line.startswith("--"):
            continue
        head = START.match(line)
        if name and not head and line.startswith(" "):
            lines.append(line.strip())
            continue
        if name:
            yield name, " ".join(lines)
        name, lines = (head.group(1), [head.group(2)]) if head else (None, [])


def normal(statement):
    """The statement with its bound names numbered in their order."""
    bound = dict.fromkeys(name for found in BOUND.finditer(statement) for group in found.groups() if group for name in group.split())
    numbered = {name: f"x{place}" for place, name in enumerate(bound)}
    return "".join(numbered.get(word, word) for word in re.split(r"([\s(){}\[\],;.]+)", statement))


def twice():
    """Where each statement that stands in two places or more stands."""
    places = defaultdict(list)
    for file in sorted(sources.CRATES.glob("*/proofs/**/*.antt")):
        for name, statement in statements(file):
            if "→" in statement or "≡" in statement:
                places[normal(statement)].append((file.relative_to(sources.CRATES), name))
    return {statement: found for statement, found in places.items() if len(found) > 1}


def count():
    return sum(len(found) - 1 for found in twice().values())


def faults():
    if (found := count()) > MOST:
        listed = "from tools, `python3 -m checks.twice` lists them"
        yield sources.CRATES, f"{found} statements stand elsewhere already, and there were {MOST}: {listed}"


def notes():
    """That the number can be lowered."""
    if (found := count()) < MOST:
        yield Path(__file__), f"only {found} statements stand elsewhere already: `python3 -m checks.twice --set`"


def main():
    if sys.argv[1:] == ["--set"]:
        file = Path(__file__)
        file.write_text(re.sub(r"^MOST = \d+", f"MOST = {count()}", file.read_text(), flags=re.M))
        return
    for statement, found in twice().items():
        print(statement, *(f"    {file}: {name}" for file, name in found), sep="\n")
    print(count(), "stand elsewhere already")


if __name__ == "__main__":
    main()
