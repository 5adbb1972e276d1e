"""What a crate's specs/Lib.antt lists as its inside isn't counted among the lines that a reader of the claim must believe.

Of a hidden function the type and the law are counted, wherever it stands (checks/believed.py).
"""

import re
import subprocess
import sys

from . import sources
from .believed import law_of, modules

HEAD = re.compile(r"^-- The inside.*$", re.M)


def counted():
    """The declarations that count-believed counts, with their modules."""
    command = [sys.executable, sources.TOP / "tools" / "count-believed", "--each"]
    said = subprocess.run(command, capture_output=True, text=True, check=True).stdout
    for crate, path, names in re.findall(r"^ *\d+ +(olap_\w+)\.([\w.]+): (.*)$", said, re.M):
        for name in names.split():
            yield (crate, path), name


def faults():
    believed = set(counted())
    for index in sorted(sources.CRATES.glob("*/specs/Lib.antt")):
        parts = HEAD.split(index.read_text(), maxsplit=1)
        inside = set(re.findall(r"^(?:pub )?mod (\w+)", parts[1], re.M)) if len(parts) == 2 else set()
        for module, name in sorted(believed):
            crate, path = module
            is_law = name.endswith("_is") and name.removesuffix("_is") in modules()[module].declarations
            hidden = law_of(module, name) or is_law
            if crate == index.relative_to(sources.CRATES).parts[0] and path in inside and not hidden:
                yield index, f"{path} is listed as inside, and {name} in it is counted as believed"
