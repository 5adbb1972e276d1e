"""tools/check-certificate by itself: the texts that were written by hand, and its words, statuses and refusals."""

import os
import subprocess
import sys
import tempfile
from collections.abc import Iterator
from pathlib import Path

from . import by_hand, checker

ALL = "certificate 1\nbottom Store\nedge Store City\ndead Store\nquestion\n"
MOST_BYTES = 67_108_864


def table_faults() -> Iterator[str]:
    for what, line, schema, question, lines in by_hand.CERTIFICATES + by_hand.OTHERS:
        text = lines if isinstance(lines, bytes) else by_hand.text(lines)
        wanted = f"rejected line {line}" if line else "accepted"
        found = checker.said(by_hand.SCHEMAS[schema], question.split(), text)
        if found != wanted:
            yield f"{what}: {found}, not {wanted}"


def word_faults() -> Iterator[str]:
    with tempfile.TemporaryDirectory() as name:
        folder = Path(name)
        (folder / "S").write_bytes(by_hand.SCHEMAS["chain"])
        (folder / "C").write_text(ALL)
        (folder / "bad").write_text("schema 1\ncategory A\nedge A B\n")
        for kind, front in (("long", b""), ("longest", b"certificate 1\n")):
            (folder / kind).write_bytes(front)
            os.truncate(folder / kind, MOST_BYTES + (kind == "long"))
        rows = (
            ("S C City Store", 0, "accepted"),
            ("S C City", 1, "rejected line 5"),
            ("S C", 2, "usage"),
            ("bad C Town", 3, "refused schema"),
            ("S missing Town", 3, "refused word 4 UnknownCategory"),
            ("S missing City Store Town Store", 3, "refused word 6 UnknownCategory"),
            ("S missing City Store City Store", 3, "refused word 7 DuplicateSource"),
            ("S long City City", 3, "refused certificate TooLong"),
            ("S longest City City", 1, "rejected line 2"),
            ("long C City", 3, "refused schema TooLong"),
            ("S missing City Store", 4, ""),
            ("missing C City Store", 4, ""),
            ("S . City Store", 4, ""),
        )
        for words, status, output in rows:
            run = [sys.executable, checker.TOOL, *words.split()]
            done = subprocess.run(run, cwd=folder, capture_output=True, text=True, check=False)
            if (done.returncode, done.stdout, done.stderr) != (status, output + "\n" if output else "", ""):
                yield f"check-certificate {words}: status {done.returncode}, {done.stdout!r} {done.stderr[-200:]!r}, not {status}, {output!r}"


def example_faults() -> Iterator[str]:
    """The certificates of examples/runs.txt, where what the program prints stands. A text of the other form is a matter of the command."""
    for row in (checker.TOP / "examples" / "runs.txt").read_text().splitlines():
        status, expected, command, *words = row.split() if row.startswith(tuple("0123456")) else ("", "", "")
        if command not in ("verify", "verify-short") or expected.endswith("/first_line.txt"):
            continue
        run = [sys.executable, checker.TOOL, *words]
        done = subprocess.run(run, cwd=checker.TOP / "examples", capture_output=True, check=False)
        wanted = b"" if expected == "/dev/null" else (checker.TOP / "examples" / expected).read_bytes()
        if (done.returncode, done.stdout) != (int(status), wanted):
            yield f"{row}: status {done.returncode}, {done.stdout.decode()!r}"


def faults() -> Iterator[str]:
    yield from table_faults()
    yield from word_faults()
    yield from example_faults()
