"""How the checks and benches find the program, and how they end if something is missing: a module, not run by itself.

- The program is the word that a check was given, else the one that the variable OLAP names, else the one that the
  gate builds. It is never built for a check. If it isn't there, a line says so, and the status is 70.
- What can't be run, as without a C compiler, is reported in a line and is no fault; if OLAP_STRICT is set, as by `.ci/run
  --strict`, it is one.
- `--help` prints what stands at the head of a check.
"""

from __future__ import annotations

import os
import shutil
import sys
from pathlib import Path

TOP = Path(__file__).resolve().parent.parent
BUILT = TOP / "crates" / "olap_cli" / "out" / "olap_cli"
NO_PROGRAM = 70

left_out: list[str] = []  # what could not be run


def program(check: str, given: str | Path | None = None) -> Path:
    """The program. Where there is none, the check ends here."""
    wanted = str(given or os.environ.get("OLAP") or BUILT)
    path = shutil.which(wanted)
    if path is None:
        print(f"{check}: there is no program {wanted}", file=sys.stderr)
        sys.exit(NO_PROGRAM)
    return Path(path).resolve()


def not_run(check: str, what: str) -> None:
    """Tells what can't be run, and why."""
    left_out.append(what)
    print(f"{check}: {what}", flush=True)


def status(faults: int | bool) -> int:
    """What a check ends with, after so many faults."""
    return 1 if faults or (left_out and os.environ.get("OLAP_STRICT")) else 0


def help_wanted(head: str | None) -> None:
    """Prints the head of a check that was asked for help, and ends."""
    if {"--help", "-h"} & set(sys.argv[1:]):
        print((head or "").strip())
        sys.exit(0)
