"""tools/install puts the files of a list and removes exactly those; the completions read schemas and run nothing of them."""

import hashlib
import os
import re
import shutil
import subprocess
import tempfile
from pathlib import Path
from typing import Iterator

from .. import manual
from ..program import find
from .common import EXAMPLES, TOP, is_there, not_run, of_tools, olap, tool

PUT = {"bin/olap", "share/man/man1/olap.1", "share/bash-completion/completions/olap", "share/zsh/site-functions/_olap",
       "share/fish/vendor_completions.d/olap.fish", "share/olap/installed", *of_tools(TOP)}
TRY = """
compopt() { :; }
source "$1"
COMP_LINE=$2 COMP_POINT=${#2}
_olap
printf '%s\\n' "${COMPREPLY[@]}"
"""


def files_of(folder: Path) -> set[str]:
    return {str(path.relative_to(folder)) for path in folder.rglob("*") if not path.is_dir()}


def paths_of(folder: Path) -> set[str]:
    return {str(path.relative_to(folder)) for path in folder.rglob("*")}


def told_faults(prefix: Path, lines: list[str]) -> Iterator[str]:
    """Its first line says of which sources the program is, as the record does; and what the others say to set has everything found."""
    sources = "unproved"
    wanted = f"installed: unproved: {find()}, of which nothing is known to be proved"
    if "OLAP" not in os.environ:
        summed = subprocess.run(["bash", TOP / "tools" / "sources-sum"], capture_output=True, text=True, check=False)
        sources = summed.stdout.strip()
        wanted = f"installed: proved, of the sources {sources}"
    if lines[:1] != [wanted] or (prefix / "share/olap/installed").read_text().splitlines()[:1] != [f"sources {sources}"]:
        yield f"of the sources it tells {lines[:1]}"
    words = [line.partition(": ")[2] for line in lines[1:]]
    looks = ["command -v olap olap-tools", "complete -p olap", *(["man -w 1 olap olap-tools", "man -w 5 olap"] if shutil.which("man") else [])]
    done = subprocess.run(["bash", "--norc", "-e", "-c", "\n".join([*words, *looks])], capture_output=True, text=True, check=False)
    named = ("bin/olap", "bin/olap-tools", "share/man/man1/olap.1", "share/man/man1/olap-tools.1", "share/man/man5/olap.5")
    places = [str(prefix / name) for name in named][: 5 if len(looks) > 2 else 2]
    found = [line for line in done.stdout.splitlines() if not line.startswith("complete ")]
    if done.returncode != 0 or found != places:
        yield f"what it says to set finds {found}: {words} {done.stderr.strip()}"


def tools_faults(prefix: Path) -> Iterator[str]:
    """The tools that are put ask the program that is put, and write nothing beside themselves."""
    alone = {name: value for name, value in os.environ.items() if name != "OLAP"}
    schema = "location/schema.txt"
    for words in (["least", schema, "Country"], ["after-no", schema, "Country", "State", "Province"], ["explain", "format", schema]):
        there = subprocess.run([prefix / "bin" / "olap-tools", *words], cwd=EXAMPLES, env=alone, capture_output=True, text=True,
                               stdin=subprocess.DEVNULL, check=False)
        ours = tool("olap-tools", *words)
        if (there.returncode, there.stdout) != (ours.returncode, ours.stdout):
            yield f"olap-tools {words[0]} that is put does otherwise: {there.stdout[:100]!r} {there.stderr[-200:]!r}"
    version = re.search(r"^## (\d+\.\d+\.\d+)", (TOP / "CHANGELOG.md").read_text(), re.M)[1]
    said = subprocess.run([prefix / "bin" / "olap-tools", "--version"], env=alone, capture_output=True, text=True, check=False)
    if said.stdout != f"olap-tools {version}\n":
        yield f"olap-tools --version says {said.stdout!r}, and the change log {version}"
    if files_of(prefix) & PUT != PUT or any("__pycache__" in name for name in files_of(prefix)):
        yield "the tools that are put write beside themselves"


def put_and_taken(prefix: Path) -> Iterator[str]:
    """In a prefix that isn't there, nor the folder above it, and in one with files and an empty folder of others."""
    for before in ((), ("bin/other", "share/man/man1/other.1", "lib/")):
        for name in before:
            path = prefix / name
            (path if name.endswith("/") else path.parent).mkdir(parents=True)
            if not name.endswith("/"):
                path.write_text("other\n")
        was = paths_of(prefix) if before else None
        for _ in range(2):  # the second time puts the same again
            done = tool("install", str(prefix))
            if done.returncode != 0 or done.stderr:
                yield f"it ends with {done.returncode}: {done.stderr.strip()}"
            yield from told_faults(prefix, done.stdout.splitlines())
        if files_of(prefix) - set(before) != PUT:
            yield f"it puts {sorted(files_of(prefix))}"
        words = ["format", "location/schema.txt"]
        ran = subprocess.run([prefix / "bin" / "olap", *words], cwd=EXAMPLES, capture_output=True, text=True, check=False)
        if (ran.returncode, ran.stdout) != olap(*words):
            yield "the program that is put does otherwise"
        yield from tools_faults(prefix)
        done = tool("install", "--remove", str(prefix))
        if done.returncode != 0 or (paths_of(prefix) if prefix.exists() else None) != was:
            yield f"--remove ends with {done.returncode}, and leaves {sorted(paths_of(prefix))}"


def refused(prefix: Path) -> Iterator[str]:
    """What isn't of this program stays as it is."""
    foreign = prefix / "foreign"
    (foreign / "bin").mkdir(parents=True)
    (foreign / "bin" / "olap").write_text("mine\n")
    if tool("install", str(foreign)).returncode == 0 or paths_of(foreign) != {"bin", "bin/olap"}:
        yield "it puts its program in the place of another"
    if tool("install", "--remove", str(foreign)).returncode == 0 or paths_of(foreign) != {"bin", "bin/olap"}:
        yield "--remove takes what it didn't put"
    script = prefix / "script"
    script.write_text("#!/bin/sh\n")
    script.chmod(0o755)
    if tool("install", str(prefix / "none"), OLAP=str(script)).returncode == 0 or (prefix / "none").exists():
        yield "it puts a script in the place of a program"
    ours = prefix / "ours"
    tool("install", str(ours))
    (ours / "share/man/man1/olap.1").write_text("edited\n")
    if tool("install", "--remove", str(ours)).returncode == 0 or files_of(ours) != PUT:
        yield "--remove takes a file that was changed"
    between = prefix / "between"  # one file is new, and the others are from before: the record knows both
    tool("install", str(between))
    with (between / "share/olap/installed").open("a") as record:
        record.write(f"file {hashlib.sha256(b'new').hexdigest()} share/man/man1/olap.1\n")
    (between / "share/man/man1/olap.1").write_bytes(b"new")
    if tool("install", "--remove", str(between)).returncode != 0 or between.exists():
        yield "--remove doesn't take away what an installation that broke off has left"
    outside = prefix / "outside"
    outside.write_text("outside\n")
    with (ours / "share/olap/installed").open("a") as record:
        record.write("file 0 ../outside\n")
    if tool("install", "--remove", str(ours)).returncode == 0 or not outside.exists() or files_of(ours) != PUT:
        yield "--remove follows a record that leads elsewhere"


# Completions in zsh: its own functions for that are taken the place of, with what they add and files as nothing.
TRY_ZSH = """
compadd() {
    local -a given
    while [[ $1 == -* ]]; do
        if [[ $1 == -S ]]; then shift; elif [[ $1 == -a ]]; then given=(${(P)2}); fi
        shift
    done
    print -rl -- ${^${(M)${given:-$@}:#${PREFIX}*}/#/$front}
}
compset() { [[ $PREFIX == *,* ]] || return 1; front=${PREFIX%,*},; PREFIX=${PREFIX##*,}; }
_files() { :; }
compdef() { :; }
front=
words=(${(z)2})
[[ $2 == *" " ]] && words+=("")
CURRENT=$#words PREFIX=$words[-1]
functions[_olap_whole]=$(<$1)
_olap_whole
"""


def completed(line: str, folder: Path) -> list[str]:
    words = ["bash", "--norc", "-c", TRY, "bash", str(TOP / "completions" / "olap.bash"), line]
    done = subprocess.run(words, cwd=folder, capture_output=True, text=True, check=False)
    return done.stdout.split() + done.stderr.split("\n")[:-1]


def completed_by_zsh(line: str, folder: Path) -> list[str]:
    words = ["zsh", "-f", "-c", TRY_ZSH, "zsh", str(TOP / "completions" / "_olap"), line]
    done = subprocess.run(words, cwd=folder, capture_output=True, text=True, check=False)
    return done.stdout.split() + done.stderr.split("\n")[:-1]


def completed_by_fish(line: str, folder: Path) -> list[str]:
    script = "source $argv[1]; complete -C $argv[2]"
    words = ["fish", "--no-config", "-c", script, str(TOP / "completions" / "olap.fish"), line]
    with tempfile.TemporaryDirectory() as home:
        environment = {**os.environ, "HOME": home, "XDG_CONFIG_HOME": home, "XDG_DATA_HOME": home}
        done = subprocess.run(words, cwd=folder, capture_output=True, text=True, env=environment, check=False)
    return done.stdout.split() + done.stderr.split("\n")[:-1]


OF_FILES = ("olap check a", "olap retract a b c d")  # where each shell completes files by itself
SHELLS = {"bash": completed, "zsh": completed_by_zsh, "fish": completed_by_fish}


def completion_faults(room: Path) -> Iterator[str]:
    name = "it's a $(touch ran) `touch ran`;touch ran.txt"
    text = "schema 1\ncategory $(touch ran)\n\tcategory  Store\r\ncategory City # no\ncategory Stage number\nedge `touch ran` A\n"
    (room / name).write_text(text)
    quoted = "'" + name.replace("'", "'\\''") + "'"
    escaped = "".join("\\" + each if not each.isalnum() else each for each in name)
    wanted = {
        "olap ": list(manual.synopses()),
        "olap s": ["summarizable", "satisfiable", "store", "shapes"],
        "olap a": ["audit", "answer", "append"],
        "olap check a": [],
        "olap retract a b c d": [],
        "olap cu": ["cube", "cubeview"],
        "olap cube ": ["1", "2", "3", "4"],
        f"olap cube 2 {quoted} {escaped} Stage,St": ["Stage,Store", "Stage,Stage"],
        f"olap cubeview 1 {quoted} i f ": ["Store", "Stage", "All"],
        "olap generate ": [],
        "olap p": ["prove", "prove-short"],
        "olap v": ["verify", "verify-short", "version"],
        "olap verify-": ["verify-short"],
        f"olap prove {quoted} Store Stage ": ["Store", "All"],
        f"olap verify {quoted} c": [],
        f"olap needs {quoted} Store Stage ": ["Store", "All"],
        f"olap breaks {quoted} i Store Stage A": ["All"],
        f"olap verify-short {quoted} c St": ["Store", "Stage"],
        f"olap verify {quoted} c Store Stage A": ["All"],
        "olap nothing x ": [],
        f"olap frozen {quoted} St": ["Store", "Stage"],
        f"olap shapes {quoted} St": ["Store", "Stage"],
        f"olap frozen {escaped} ": ["Store", "Stage", "All"],
        f"olap implies {quoted} ": ["Store", "Stage"],
        f"olap summarizable {quoted} Store Stage ": ["Store", "All"],
        f"olap store {quoted} i f Stage A": ["All"],
        f"olap answer {quoted} i s S": ["Store", "Stage"],
        "olap frozen /dev/zero ": [],
    }
    for shell, by_shell in SHELLS.items():
        if not is_there(shell, shell):
            not_run(f"{shell} isn't there (Debian's package {shell}), so its completion wasn't run")
            continue
        for line, words in wanted.items():
            # bash completes files by itself; and zsh and fish sort.
            if line not in OF_FILES and sorted(by_shell(line, room)) != sorted(words):
                yield f"`{line}` is completed in {shell} by {by_shell(line, room)}"
    if (room / "ran").exists() or sorted(os.listdir(room)) != [name]:
        yield "it ran what stands in a name or a schema"


def faults() -> Iterator[str]:
    with tempfile.TemporaryDirectory() as folder:
        for number, check in enumerate((put_and_taken, refused)):
            yield from (f"install: {wrong}" for wrong in check(Path(folder) / f"no such{number}" / f"a b{number}"))
        (Path(folder) / "room").mkdir()
        yield from (f"completions: {wrong}" for wrong in completion_faults(Path(folder) / "room"))
