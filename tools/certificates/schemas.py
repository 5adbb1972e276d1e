"""What is a schema, and what is none: tools/check-certificate by texts written by hand from docs/FORMATS.md, and against `format`.

The tool doesn't know most limits, so what is refused for one of them isn't compared.
"""

import random
import re
import tempfile
from collections.abc import Iterator
from pathlib import Path

from . import by_hand, checker, drawn
from .compared import asked

SEED, DRAWN, ALTERED = 29, 30, 6  # schemas drawn, and how often each text is altered
REFUSED = 3
LIMITS = re.compile(rb"TooMany|TextTooLong")

FRONT = "schema 2\ncategory S\ncategory A\ncategory N number\nedge S A\nedge A N\nedge N All\n"

# Lines that may stand below those in front.
LINES = [
    "",
    "  # a comment: é \t",
    "constraint S: S_A_N_All & S.S & S.N.A",
    "constraint\tS:S_A->S.N<-007",
    "constraint S: one() ^ ((true)) | !!S = \"\\\"\\\\\" <-> S.All = \"all\"\r",
    f"constraint N: {'(' * 64}N <= -1000000000000000000{')' * 64}",
    f"constraint A: {' & '.join(['A_N'] * 64)}",
]

# Lines that may not, and why.
NO_LINES = [
    ("a control character in a comment", "# \x01"),
    ("the last control character", "# \x7f"),
    ("a CR within a line", "edge S\rN"),
    ("two CR at the end", "\r\r"),
    ("a comment behind a line", "edge S N # twice"),
    ("a space that isn't ASCII", "edge S\u00a0N"),
    ("a version twice", "schema 2"),
    ("an unknown line", "level B"),
    ("a category twice", "category A"),
    ("All declared", "category All"),
    ("a category named as a word of formulas", "category one"),
    ("a category with no way to All", "category B"),
    ("a circle with no way to All", "category B\ncategory C\nedge B C\nedge C B"),
    ("an edge twice", "edge S A"),
    ("an edge to itself", "edge A A"),
    ("an edge out of All", "edge All S"),
    ("an edge of an unknown category", "edge S B"),
    ("a constraint on All", "constraint All: true"),
    ("a constraint on an unknown category", "constraint B: true"),
    ("a path over no edge", "constraint S: S_N"),
    ("a path against an edge", "constraint A: A_S"),
    ("a path over an edge that is declared below", "constraint S: S_N\nedge S N"),
    ("a path with a category twice", "edge A S\nconstraint S: S_A_S"),
    ("a path from another category", "constraint S: A_N"),
    ("a path of one category", "constraint S: S"),
    ("a path with `_` and `.`", "constraint S: S_A.N"),
    ("four categories and `.`", "constraint S: S.A.N.All"),
    ("a way that is compared", 'constraint S: (S.A.A = "a")'),
    ("a comparison with nothing", "constraint S: (S.A =)"),
    ("a text compared with a number", "constraint S: S = 5"),
    ("a number compared with a text", 'constraint S: S.N = "5"'),
    ("a text that is less", 'constraint S: S < "a"'),
    ("a number of 20 digits", f"constraint S: S.N < {'0' * 19}1"),
    ("a number above the greatest", f"constraint S: S.N < {10**18 + 1}"),
    ("another escape", r'constraint S: S = "\n"'),
    ("a string that isn't closed", 'constraint S: S = "a'),
    ("a bracket that isn't closed", "constraint S: (S_A"),
    ("a bracket too many", "constraint S: S_A)"),
    ("two formulas in brackets", "constraint S: (S_A, S_A)"),
    ("a list that ends with a comma", "constraint S: one(S_A,)"),
    ("no colon", "constraint S S_A"),
    ("no formula", "constraint S:"),
    ("65 brackets", f"constraint S: {'(' * 65}S_A{')' * 65}"),
    ("65 levels", f"constraint S: {' | '.join(['S_A'] * 65)}"),
    ("levels without an end", f"constraint S: {'!' * 60_000}S_A"),
]

# Whole texts that are no schemas, and why.
NO_TEXTS = [
    ("nothing", b""),
    ("a comment alone", b"# schema 1\n"),
    ("no version", b"category S\nedge S All\n"),
    ("a constraint before the version", b"constraint All: true\nschema 1\n"),
    ("an unknown version", b"schema 3\n"),
    ("a category of numbers in the first version", b"schema 1\ncategory N number\nedge N All\n"),
    ("a sign of the second version in the first", b"schema 1\ncategory S\nedge S All\nconstraint S: S < 5\n"),
    ("a byte order mark", b"\xef\xbb\xbfschema 1\n"),
    ("a byte that is no text, in a comment", b"schema 1\n# \xff\n"),
]


def is_schema(text: bytes) -> bool:
    try:
        checker.MODULE.Schema(text)
    except checker.MODULE.Fault:
        return False
    return True


def written() -> Iterator[tuple[str, bytes, bool]]:
    """What each text written by hand shows, the text, and whether it is a schema."""
    for line in LINES:
        yield f"a line {line!r}", f"{FRONT}{line}\n".encode(), True
    for what, line in NO_LINES:
        yield what, f"{FRONT}{line}\n".encode(), False
    for what, text in NO_TEXTS:
        yield what, text, False


def altered(chance: random.Random, text: str) -> str:
    """The text with a piece less, a piece of its own or an odd one more or in another's place, or a line less, twice or elsewhere."""
    cut = chance.choice((r"\w+|\W", r"\w+|\W", r".*\n"))
    pieces = re.findall(cut, text)
    here = chance.randrange(len(pieces))
    odd = ["\x02", "\r", "\t", '"', "\\", "-", "<", "_", ".", "(", ")", "!", "é", "All", "one", "number", "-5"]
    more = [chance.choice(pieces)] if cut == r".*\n" else [chance.choice(chance.choice((pieces, odd)))]
    return "".join([*pieces[:here], *chance.choice(([], more, more)), *pieces[here + chance.randrange(2) :]])


def differs(text: bytes) -> str | None:
    """How what `format` says of a text differs from what the tool finds."""
    with tempfile.TemporaryDirectory() as name:
        (Path(name) / "S").write_bytes(text)
        status, said = asked(Path(name), "format", "S")
    if is_schema(text) == (status == 0) or (status == REFUSED and LIMITS.search(said)):
        return None
    return f"format ends with {status} and {said[:60]!r}, and check-certificate finds {'a' if is_schema(text) else 'no'} schema: {text!r}"


def faults() -> Iterator[str]:
    for what, text, wanted in written():
        if is_schema(text) != wanted:
            yield f"{what}: check-certificate finds {'no' if wanted else 'a'} schema: {text[:200]!r}"
        if wrong := differs(text):
            yield f"{what}: {wrong}"
    chance = random.Random(SEED)
    texts = [each.decode() for each in by_hand.SCHEMAS.values()] + [drawn.schema(chance).text() for _ in range(DRAWN)]
    for text in texts * ALTERED:
        if wrong := differs(altered(chance, text).encode()):
            yield f"an altered schema: {wrong}"
