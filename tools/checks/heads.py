"""Each source, definition and lemma file says in its first line what it is, and each file of specs/ or proofs/ is listed.

Files that a function's proof is made of (Answers, Invariants) are named by their folder and need no such line.
"""

import re

from . import sources


def faults():
    for crate in sources.crate_names():
        folder = sources.CRATES / crate
        files = [*folder.glob("src/**/*.rt"), *folder.glob("specs/**/*.antt"), *folder.glob("proofs/**/*.antt")]
        for file in sorted(files):
            is_named = file.stem in ("Answers", "Invariants") and file.parent != folder / "proofs"
            text = file.read_text()
            if text.strip() and not is_named and not re.match(r"(//[!/]? |-- )\S", text):
                yield file, "its first line doesn't say what it is"
        for kind in ("specs", "proofs"):
            index = folder / kind / "Lib.antt"
            listed = index.read_text() if index.exists() else ""
            for file in sorted(folder.glob(f"{kind}/*.antt")):
                if file.stem != "Lib" and not re.search(rf"\bmod {file.stem}\b", listed):
                    yield file, f"{kind}/Lib.antt doesn't list it"
