"""What is installed and packaged with the program: where each file lies in the sources, and where below a prefix."""

from __future__ import annotations

import re
from pathlib import Path
from typing import Dict, Iterator, Tuple

# The designers' tools, and the folders of modules that they are made of: below one folder, with one command in PATH.
TOOLS = ("olap-tools", "check-certificate", "compare", "constants", "draw", "explain", "least", "made", "propose", "report")
MODULES = ("designers", "pages")
BELOW = Path("share/olap")  # what the tools are and read lies there as in the sources
LAUNCHER = """#!/bin/sh
# The tools of a designer around olap, which lie below the same prefix.
exec python3 "$(dirname "$(dirname "$(readlink -f "$0")")")/share/olap/tools/olap-tools" "$@"
"""
COPIED = {
    Path("share/man/man1/olap.1"): "man/olap.1",
    Path("share/man/man1/olap-tools.1"): "man/olap-tools.1",
    Path("share/man/man5/olap.5"): "man/olap.5",
    Path("share/bash-completion/completions/olap"): "completions/olap.bash",
    Path("share/zsh/site-functions/_olap"): "completions/_olap",
    Path("share/fish/vendor_completions.d/olap.fish"): "completions/olap.fish",
    BELOW / "man/olap.1": "man/olap.1",
    BELOW / "man/olap.5": "man/olap.5",
    BELOW / "examples/location/schema.txt": "examples/location/schema.txt",
}
Content = Tuple[bytes, int]  # the bytes and the mode


def version_in(changes: str) -> str | None:
    """The version that the change log has last."""
    found = re.search(r"^## (\d+\.\d+\.\d+)", changes, re.M)
    return found[1] if found else None


def tools(top: Path) -> Iterator[Path]:
    """The files of the tools, from the sources' top."""
    yield from (Path("tools") / name for name in TOOLS)
    for folder in MODULES:
        yield from (file.relative_to(top) for file in sorted((top / "tools" / folder).glob("*.py")))


def contents(top: Path) -> Dict[Path, Content]:
    """What lies below a prefix beside the program and the documents, of the sources at this top."""
    version = version_in((top / "CHANGELOG.md").read_text(encoding="utf-8")) or "unknown"
    found = {place: ((top / source).read_bytes(), 0o644) for place, source in COPIED.items()}
    for file in tools(top):
        found[BELOW / file] = ((top / file).read_bytes(), 0o755 if file.name in TOOLS else 0o644)
    found[BELOW / "version"] = (f"{version}\n".encode(), 0o644)
    found[Path("bin/olap-tools")] = (LAUNCHER.encode(), 0o755)
    return found
