"""The program's commands on certificates against tools/check-certificate, which knows nothing of the program.

For the texts written by hand the right verdict is known; on those that are cut, altered or about another question both
must say the same.
"""

import random
import subprocess
import tempfile
from collections.abc import Iterator
from pathlib import Path

from checks import transcripts

from . import by_hand, checker

SEED = 29
PATIENCE = 60  # seconds
FIRST_LINES = {"verify": b"certificate 1\n", "verify-short": b"short certificate 1\n"}
YES, NO = 0, 1

Question = list[str]  # the target, and the sources


def asked(folder: Path, *words: str) -> tuple[int, bytes]:
    done = subprocess.run([transcripts.program(), *words], cwd=folder, capture_output=True, timeout=PATIENCE, check=False)
    return done.returncode, done.stdout


def differs(command: str, schema: bytes, question: Question, text: bytes, wanted: str | None = None) -> str | None:
    """How what the program says of a text differs from what is to be said of it: by the checker, where nothing else is known."""
    if not text.startswith(FIRST_LINES[command]):
        wanted = "rejected line 1"
    wanted = wanted or checker.said(schema, question, text)
    with tempfile.TemporaryDirectory() as name:
        (Path(name) / "S").write_bytes(schema)
        (Path(name) / "C").write_bytes(text)
        found = asked(Path(name), command, "S", "C", *question)
    if found == (YES if wanted == "accepted" else NO, f"{wanted}\n".encode()):
        return None
    return f"{command} ends with {found[0]} and {found[1][:60]!r}, not {wanted!r}, on {text[:200]!r}"


def altered(chance: random.Random, text: bytes, other: bytes) -> Iterator[bytes]:
    """Texts that are cut, or that have a line too few, too many, in another's place, or of another certificate; and that other one."""
    lines = text.splitlines(keepends=True)
    here, there = chance.randrange(len(lines)), chance.randrange(len(lines))
    swapped = lines.copy()
    swapped[here], swapped[there] = lines[there], lines[here]
    yield b"".join(lines[:here])
    yield text[: chance.randrange(len(text))]
    yield b"".join(swapped)
    yield b"".join([*lines[:here], *lines[here + 1 :]])
    yield b"".join([*lines[: here + 1], *lines[here:]])
    yield b"".join([*lines[:here], chance.choice(other.splitlines(keepends=True)), *lines[here + 1 :]])
    yield text + lines[here]
    yield other


def written() -> Iterator[tuple[str, int, bytes, Question, bytes]]:
    """What is said of each text written by hand, the line at which it is wrong or 0, its schema, its question and the text."""
    for what, line, schema, question, lines in by_hand.CERTIFICATES + by_hand.OTHERS:
        text = lines if isinstance(lines, bytes) else by_hand.text(lines)
        yield what, line, by_hand.SCHEMAS[schema], question.split(), text


def by_hand_faults() -> Iterator[str]:
    for what, line, schema, question, text in written():
        for command in FIRST_LINES:
            wanted = f"rejected line {line}" if line else "accepted"
            if wrong := differs(command, schema, question, text, wanted):
                yield f"{what}: {wrong}"


def altered_faults() -> Iterator[str]:
    accepted = [each for each in written() if not each[1]]
    for place, (what, _, schema, question, text) in enumerate(accepted):
        chance = random.Random(SEED + place)
        for other in altered(chance, text, accepted[place - 1][4]):
            for command, first in FIRST_LINES.items():
                if text.startswith(first) and (wrong := differs(command, schema, question, other)):
                    yield f"{what}, altered: {wrong}"


def faults() -> Iterator[str]:
    yield from by_hand_faults()
    yield from altered_faults()
