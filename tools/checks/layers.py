"""What a crate stands on: its README says what crates.txt says, and each entry of crates.txt is named by the crate, or by one
that it stands on, since the types of the one may be those of the other.

A README says it in a sentence with `Stands on` and names in backticks. A README without one says nothing of it.
"""

import re

from . import sources


def said(crate):
    """The crates that the README says it stands on, if it says so."""
    text = (sources.CRATES / crate / "README.md").read_text()
    found = re.search(r"\bStands\s+on\s+(.*?)(?:\.(?=\s)|;|\Z)", text, re.S)
    names = set(re.findall(r"`(\w+)`", found.group(1))) if found else set()
    return names or None


def named(crate):
    """All words of the crate's sources, definitions and proofs."""
    kinds = ("src/**/*.rt", "specs/**/*.antt", "proofs/**/*.antt")
    files = (file for kind in kinds for file in (sources.CRATES / crate).glob(kind))
    return {word for file in files for word in re.findall(r"\w+", file.read_text())}


def faults():
    crates = set(sources.crate_names())
    for crate in sorted(crates):
        listed, there, file = set(sources.below(crate)), said(crate), sources.CRATES / crate / "README.md"
        for name in sorted(listed - named(crate) - {name for other in listed & crates for name in sources.below(other)}):
            yield sources.TOP / "crates.txt", f"{crate} stands on {name} there, and doesn't name it"
        if there is not None and listed - there:
            yield file, f"it stands on these too, by crates.txt: {' '.join(sorted(listed - there))}"
        if there is not None and there - listed:
            yield file, f"it doesn't stand on these, by crates.txt: {' '.join(sorted(there - listed))}"
