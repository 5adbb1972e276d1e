"""Each command of the program stands in each place that lists commands, and no other does.

The commands are those that src/words.rt of each family tells apart, and `version`, which the top call answers itself. For
docs/proved/claim.md, whose rows speak of more than commands, only the first is checked.
"""

import re

from . import families, sources

WORDS = [sources.CRATES / family / "src" / "words.rt" for family in families.FAMILIES]
WORDS += [sources.CRATES / families.TOP / "src" / "judging.rt"]

# Where commands are listed, what leads to the list there, and the form of a name in it.
ROW = r"^\| `([\w-]+)(?: [A-Z][^`]*)?` \|"
PLACES = (
    ("README.md", "", ROW),
    ("docs/COMMANDS.md", "\n| words | what it does | status |\n", ROW),
    ("docs/COMMANDS.md", "\n| command | order |\n", r"^\| `([\w-]+)` \|"),
    ("man/olap.1", "\n.SH SYNOPSIS\n", r"^\\fBolap ([\w\\-]+)\\fR"),
    ("man/olap.1", "\n.SH COMMANDS\n", r'^\.TP\n\.BI? ([\w\\-]+)(?: "|$)'),
    ("completions/olap.bash", "\n        for each in ", r"(?<![\w-])([a-z-]{3,})(?![\w-])(?=[a-z -]*; do$)"),
    ("examples/runs.txt", "", r"^[013456] \S+ ([\w-]+)"),
    ("tools/attack", "", r'\["([a-z][a-z-]+)"(?:, (?!\[)|\](?=\]\n))'),
    ("tools/refuse-memory", "\nCOMMANDS = (\n", r'^    \["([\w-]+)"(?:, |\])'),
    ("tools/real-edges", "\nORDERS = (\n", r'^    \(\["([\w-]+)"(?:, |\])'),
)


def section(text, start):
    """The part of a text after what begins it, up to the end of a table, list or section; without a start all of it."""
    after = text.partition(start)[2] if start else text
    return re.split(r"\n\n|\n\.SH |\n\)\n|(?<=; do)\n", after, maxsplit=1)[0] if start else after


def faults():
    commands = set()
    for words in WORDS:
        found = set(re.findall(r'^ +"([\w-]+)" => ', words.read_text(), re.M))
        commands |= found
        if not found:
            yield words, "no command was read"
    for place, start, form in PLACES:
        file = sources.TOP / place
        listed = {name.replace("\\", "") for name in re.findall(form, section(file.read_text(), start), re.M)}
        for name in sorted(commands - listed):
            yield file, f"it lacks the command {name}" + (f", after {start.strip()}" if start else "")
        for name in sorted(listed - commands):
            yield file, f"no such command: {name}"
    proved = sources.TOP / "docs" / "proved" / "claim.md"
    for name in sorted(name for name in commands if not re.search(rf"`{name}`", proved.read_text())):
        yield proved, f"no row speaks of the command {name}"
