"""What a designer runs needs Python 3.8 and its standard library: nothing newer is written in it, and other Pythons that
are there run it."""

import ast
import re
import shutil
import subprocess
import sys
from pathlib import Path
from typing import Iterator

from .common import EXAMPLES, TOOLS

OLDEST = (3, 8)
PROGRAMS = ("least", "compare", "constants", "propose", "explain", "draw", "report", "made", "install", "check-certificate", "olap-tools")
# What came after the oldest version, as far as the syntax doesn't show it.
NEWER = {"removeprefix", "removesuffix", "cache", "pairwise", "bit_count", "is_relative_to", "with_stem", "readlink", "indent",
         "randbytes"}
OTHERS = ("python3.8", "python3.9", "pypy3", "python3.10")  # the first of these that runs
OWN = ("after-no", "split", "wide", "keep", "sql", "bands")  # the commands of olap-tools that are modules
BUILT_IN = {"dict", "frozenset", "list", "set", "tuple", "type"}


def annotations(tree: ast.AST) -> Iterator[ast.AST]:
    """What isn't evaluated: the types of parameters, results and variables."""
    for node in ast.walk(tree):
        if isinstance(node, (ast.arg, ast.AnnAssign)) and node.annotation:
            yield node.annotation
        if isinstance(node, (ast.FunctionDef, ast.AsyncFunctionDef)) and node.returns:
            yield node.returns


def newer(file: Path) -> Iterator[str]:
    """What a text has that the oldest version hasn't."""
    text = file.read_text(encoding="utf-8")
    try:
        tree = ast.parse(text, feature_version=OLDEST)
    except SyntaxError as error:
        yield f"line {error.lineno}: {error.msg}"
        return
    told = {part for annotation in annotations(tree) for part in ast.walk(annotation)}
    for node in ast.walk(tree):
        if isinstance(node, ast.Attribute) and node.attr in NEWER:
            yield f"line {node.lineno}: {node.attr} is newer"
        if isinstance(node, ast.Subscript) and isinstance(node.value, ast.Name) and node.value.id in BUILT_IN and node not in told:
            yield f"line {node.lineno}: {node.value.id}[..] is newer where it is evaluated: the type stands in typing"
    if re.search(r"(-> |: )[a-z]+\[", text) and "from __future__ import annotations\n" not in text:
        yield "its annotations are evaluated"


def runs(python: str) -> bool:
    """Whether there is such a Python; a name that is found may still be of none."""
    return bool(shutil.which(python)) and subprocess.run([python, "-c", "pass"], capture_output=True, check=False).returncode == 0


def other_faults(python: str) -> Iterator[str]:
    """Another Python runs the tools as this one does."""
    location = EXAMPLES / "location"
    schema, instance, certificate = (str(location / name) for name in ("schema.txt", "instance.csv", "certificates/Country-short.txt"))
    words = (
        ("least", schema, "Store"), ("constants", schema, instance), ("propose", instance),
        ("check-certificate", schema, certificate, "Country", "City"),
    )  # fmt: skip
    helps = [(name, "--help") for name in ("compare", "draw", "report", "made", "install")]
    for name, *rest in [*words, *helps, *(("olap-tools", name, "--help") for name in OWN)]:
        other, own = (
            subprocess.run([each, TOOLS / name, *rest], capture_output=True, text=True, check=False) for each in (python, sys.executable)
        )
        # What argparse prints for help differs between versions.
        if other.returncode != own.returncode or (other.stdout != own.stdout and rest[-1:] != ["--help"]):
            yield f"{name} {rest[0]} by {python}: status {other.returncode}, {other.stderr.strip()[-200:]}"


def faults() -> Iterator[str]:
    for file in [*(TOOLS / name for name in PROGRAMS), *sorted((TOOLS / "pages").glob("*.py")), *sorted((TOOLS / "designers").glob("*.py"))]:
        yield from (f"{file.relative_to(TOOLS)}, for Python {OLDEST[0]}.{OLDEST[1]}: {wrong}" for wrong in newer(file))
    other = next((python for python in OTHERS if runs(python)), None)
    if other:
        yield from other_faults(other)
