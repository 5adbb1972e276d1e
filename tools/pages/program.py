"""The program, asked. It is found and run here, and never built.

`find` takes the program that the variable OLAP names, else the one that `./olap` would run without building; of tools that are
installed, the program below the same prefix.
"""

from __future__ import annotations

import hashlib
import os
import shutil
import signal
import stat
import subprocess
import sys
import tempfile
import threading
from contextlib import contextmanager
from dataclasses import dataclass
from pathlib import Path
from typing import Callable, Iterator, NoReturn, Sequence

TOP = Path(__file__).resolve().parents[2]
BUILT = TOP / "crates" / "olap_cli" / "out" / "olap_cli"
UNPROVED = TOP / "olap-unproved"  # the script that builds the program without its proofs
MOST_BYTES = 67_108_864  # of a file, but for those of these kinds
MOST_OF_KIND = {"instance": 4_294_967_296, "store": 17_179_869_184, "facts": sys.maxsize}
PIECE = 1 << 20  # bytes that are copied at a time


class Fault(Exception):
    """What is told in one line on standard error, and the status that the tool ends with."""

    def __init__(self, message: str, status: int = 3):
        super().__init__(message)
        self.status = status


class Late(Exception):
    """There was no answer in time."""


@dataclass(frozen=True)
class Answer:
    """How the program ended, and what it printed."""

    status: int
    text: str


RUNNING: set[subprocess.Popen] = set()  # what was started and has not ended
STOPPED = threading.Event()  # nothing more is to be started


def stop_all() -> None:
    """Ends all that was started and that is started yet, for a tool that ends before its time."""
    STOPPED.set()
    for child in list(RUNNING):
        child.kill()


def output_of(words: Sequence[str | Path], folder: Path | None = None, seconds: float | None = None,
              given: bytes | None = None) -> tuple[int, bytes]:
    """The status of a command and what it printed, where its input is this; `Late` where it didn't end within so many seconds."""
    stdin = subprocess.DEVNULL if given is None else subprocess.PIPE
    child = subprocess.Popen(words, cwd=folder, stdin=stdin, stdout=subprocess.PIPE, stderr=subprocess.DEVNULL)
    RUNNING.add(child)
    if STOPPED.is_set():
        child.kill()
    try:
        printed, _ = child.communicate(given, timeout=seconds)
        return child.returncode, printed
    except subprocess.TimeoutExpired:
        raise Late from None
    finally:
        if child.poll() is None:
            child.kill()
            child.communicate()
        RUNNING.discard(child)


def most_bytes(kind: str) -> int:
    """The most bytes of a file of this kind, as `schema 2`; facts may have any number. The program refuses a longer one, so no more
    than one byte beyond is read."""
    return MOST_OF_KIND.get(kind.split(" ")[0], MOST_BYTES)


@dataclass(frozen=True)
class Program:
    """The program, run in a folder that holds copies of the files that are asked about."""

    path: Path
    folder: Path

    def put(self, name: str, file: str, kind: str = "schema") -> None:
        """Copies a file of this kind into the folder under this name. It is read once, so a pipe will do."""
        left = most_bytes(kind) + 1
        try:
            with open(file, "rb") as source, (self.folder / name).open("wb") as copy:
                while left > 0:
                    piece = source.read(min(left, PIECE))
                    if not piece:
                        return
                    left -= copy.write(piece)
        except OSError as error:
            raise Fault(f"{file}: {error.strerror}", 4) from None

    def ask(self, *words: str, seconds: float | None = None) -> Answer:
        """Runs the program with these words; `Late` where it didn't end within so many seconds."""
        try:
            status, printed = output_of([self.path, *words], self.folder, seconds=seconds)
        except OSError as error:
            raise Fault(f"{self.path}: {error.strerror}", 70) from None
        return Answer(status, printed.decode())

    def must(self, *words: str, ends: tuple[int, ...] = (0,), seconds: float | None = None) -> Answer:
        """The same, where any other status is a fault that is told in the program's own words."""
        answer = self.ask(*words, seconds=seconds)
        if answer.status not in ends:
            first = answer.text.split("\n", 1)[0]
            raise Fault(first or f"{words[0]} ended with status {answer.status}", answer.status if answer.status > 0 else 70)
        return answer


def is_current() -> bool:
    """Is the built program the one that `./olap` runs without building?"""
    record = BUILT.with_name("olap_cli.sources")
    if not (os.access(BUILT, os.X_OK) and record.is_file()):
        return False
    sources = subprocess.run(["bash", TOP / "tools" / "sources-sum"], capture_output=True, text=True, check=False)
    program = hashlib.sha256(BUILT.read_bytes()).hexdigest()
    return record.read_text().strip() == f"{sources.stdout.strip()} {program}  -"


def installed() -> Path | None:
    """The program beside tools that are installed, which lie in PREFIX/share/olap; None of tools among the sources."""
    return None if (TOP / "crates").is_dir() else TOP.parent.parent / "bin" / "olap"


def find() -> Path:
    """The program; it isn't built for this."""
    named = os.environ.get("OLAP")
    if named:
        found = shutil.which(named)
        if found is None:
            raise Fault(f"OLAP names no program: {named} (one that isn't in PATH needs its whole path, as {UNPROVED})", 70)
        return Path(found).resolve()
    beside = installed()
    if beside is not None:
        if not os.access(beside, os.X_OK):
            raise Fault(f"there is no program {beside}: set OLAP to the program", 70)
        return beside
    if not is_current():
        raise Fault(f"no program is built from these sources: run {TOP / 'olap'} once, or set OLAP={UNPROVED}, which needs no proof", 70)
    return BUILT


@contextmanager
def opened() -> Iterator[Program]:
    """The program, with a folder of its own that is taken away at the end."""
    path = find()
    with tempfile.TemporaryDirectory(prefix="olap-") as folder:
        yield Program(path, Path(folder))


def target_of(output: str) -> Path:
    """The file to be written: where a link leads, so that the link stays."""
    return Path(os.path.realpath(output))


def is_plain(path: Path) -> bool:
    """Is this a plain file, or nothing yet? A device, a pipe or a socket is written into, and never replaced."""
    try:
        return stat.S_ISREG(path.stat().st_mode)
    except FileNotFoundError:
        return True


def must_be_writable(output: str | None) -> None:
    """Tells before the work what can't be written after it."""
    if output is None:
        return
    target = target_of(output)
    try:
        if target.is_dir():
            raise IsADirectoryError(21, os.strerror(21))
        needed = target.parent if is_plain(target) else target
        needed.stat()
        if not os.access(needed, os.W_OK):
            raise PermissionError(13, os.strerror(13))
    except OSError as error:
        raise Fault(f"{output}: {error.strerror}", 5) from None


def write_whole(text: str, output: str | None) -> None:
    """Writes to standard output, or beside the file and then in its place, so that no half of a text is left."""
    if output is None:
        write_out(text)
        return
    target = target_of(output)
    try:
        if not is_plain(target):
            with open(target, "wb", buffering=0) as into:
                write_all(into.fileno(), text.encode())
            return
        with tempfile.NamedTemporaryFile(dir=target.parent, prefix=".olap-", delete=False) as beside:
            beside.write(text.encode())
        os.chmod(beside.name, 0o666 & ~current_umask())
        os.replace(beside.name, target)
    except OSError as error:
        if "beside" in locals():
            Path(beside.name).unlink(missing_ok=True)
        raise Fault(f"{output}: {error.strerror}", 5) from None


def write_all(into: int, content: bytes) -> None:
    left = memoryview(content)
    while left:
        left = left[os.write(into, left) :]


def write_out(text: str) -> None:
    """To standard output, past what Python would write again when it ends."""
    try:
        write_all(1, text.encode())
    except OSError as error:
        raise Fault(f"standard output: {error.strerror}", 5) from None


def current_umask() -> int:
    mask = os.umask(0)
    os.umask(mask)
    return mask


def run(name: str, main: Callable[[], None]) -> NoReturn:
    """Runs a tool. A fault is told in one line; Ctrl-C ends it at once, with the status that a shell gives."""
    try:
        main()
    except Fault as fault:
        end(name, fault)
    except KeyboardInterrupt:
        stop_all()
        sys.stderr.flush()
        os._exit(128 + signal.SIGINT)
    sys.exit(0)


def end(name: str, fault: Fault) -> NoReturn:
    """Tells the fault in one line, whatever is in it, and ends."""
    print(f"{name}: {one_line(str(fault))}", file=sys.stderr)
    sys.exit(fault.status)


def one_line(text: str) -> str:
    return "".join(c if c.isprintable() else c.encode("unicode_escape", "surrogatepass").decode() for c in text)
