"""Out of memory comes of an allocator's refusal: what the type `Memory` leaves open, looked for in the sources.

`Memory` is made of an `AllocError`, and its field is private. But anybody can write an `AllocError` down, and the standard
library gives one for other reasons too. So in the sources of the crates, but for the files of MAKERS:

- `AllocError`, and `AllocFailed`, which hands back what was to be kept, stand only in a `use` and as the error of a `Result`;
- the other names of an allocator's error stand nowhere;
- nothing stands that gets an `AllocError` of the standard library without a request for memory, or by a request that
  no machine meets.
"""

import re

from . import sources

# The files that make a `Memory` of a refusal, with how often each names the allocator's errors.
MAKERS = {
    "olap_base/src/ids.rt": 9,
    "olap_base/src/refusals.rt": 6,
    "olap_order/src/replies.rt": 6,
    "olap_records/src/refused.rt": 3,
}
NAMES = re.compile(r"\bAllocError\b|\bAllocFailed\b|\bTryReserveError\b")
USE = re.compile(r"^\s*(pub )?use std::alloc::(\{[A-Za-z, ]+\}|[A-Za-z]+);")
RESULT = re.compile(r"\bAllocError>|\bResult<[^;]*\bAllocFailed<\w+>>")
LARGE = r"(\b(MAX|[1-9][\d_]{9,})\b|<<|\bpow\()"
NEVER = [
    (r"\bunsafe\b", "unsafe code could read a `Memory` out of nothing"),
    (r"\bimpl\b.*\bAllocator for\b", "an allocator of one's own refuses when it likes"),
    (r"\bimpl\b.*\bClone for\b", "a `clone` of one's own refuses when it likes: derive it"),
    (r"\bfmt\b", "`format!` and `write!` tell a refusal of one's own `fmt` as an `AllocError`"),
    (r"\bRefCell\b|\bOnceCell\b|\bOnceLock\b|\bRc\b|\bArc\b", "its `clone` or `get_or_try_init` may give an `AllocError`"),
    (r"\bBump\b|\bout_of_memory\(|\bSpawnError\b", "it gives an `AllocError` for another reason"),
    (r"\b(with_capacity|reserve\w*|try_reserve\w*|repeat|resize|from_elem)\([^)]*" + LARGE, "a request that no machine meets"),
    (r"vec!\[in [^]]*;[^]]*" + LARGE, "a request that no machine meets"),
    (r"\b(usize|isize|[ui](64|128))::MAX\b", "a number to ask for too much with"),
    (r"\bErrorKind::OutOfMemory\b", "io's word for it: one file of the program may look for it"),
]
# Where a list is full: the files that say so, of a list that they hold, and how often.
FULL = {
    "olap_draft/src/searches.rt": 1,  # of the steps of a search
    "olap_draft/src/trees.rt": 1,
    "olap_encoding/src/encoders.rt": 1,
    "olap_encoding/src/starting.rt": 1,
    "olap_proof/src/plain.rt": 1,
    "olap_proof/src/writing.rt": 1,
}
# The one file that has each of these for another end.
LOOKS = {
    ("olap_cli/src/main.rt", r"\bErrorKind::OutOfMemory\b"),
    ("olap_clauses/src/effort.rt", r"\b(usize|isize|[ui](64|128))::MAX\b"),
}


def code(line):
    """The line without its comment and without texts; nothing of a line that only proofs read."""
    if re.match(r"\s*(ghost use|requires|ensures)\b", line):
        return ""
    return re.sub(r'b?"(\\.|[^"\\])*"', '""', line).split("//")[0]


def faults():
    for file in sorted(sources.CRATES.glob("*/src/**/*.rt")):
        name = str(file.relative_to(sources.CRATES))
        lines = [code(line) for line in file.read_text().splitlines()]
        full = sum(line.count("Memory::full(") for line in lines)
        if full > FULL.get(name, 0):
            yield file, f"it says {full} times that a list is full: read it, and set FULL"
        if name in MAKERS:
            count = sum(len(NAMES.findall(line)) for line in lines)
            if count != MAKERS[name]:
                yield file, f"it names the allocator's errors {count} times, not {MAKERS[name]}: read it, and set MAKERS"
            continue
        for place, line in enumerate(lines, 1):
            if NAMES.search(line) and not USE.match(line):
                if NAMES.search(RESULT.sub("", line)):
                    yield file, f"line {place}: an allocator's error other than as a result's error: {line.strip()}"
            for pattern, why in NEVER:
                if re.search(pattern, line) and (name, pattern) not in LOOKS:
                    yield file, f"line {place}: {why}: {line.strip()}"
