"""The picture in docs/ARCHITECTURE.md is that of crates.txt: each crate on the first line above all that it stands on.

    python3 tools/checks/picture.py     prints it
"""

import re
import sys
from functools import cache
from pathlib import Path

if __name__ == "__main__":
    sys.path.insert(0, str(Path(__file__).resolve().parent.parent))

from checks import sources  # noqa: E402

DOCUMENT = sources.TOP / "docs" / "ARCHITECTURE.md"
WIDTH = 110


@cache
def layer(crate):
    """How many crates stand on one another up to this one."""
    return 1 + max((layer(each) for each in sources.below(crate) if each in sources.crate_names()), default=0)


def picture():
    """A line for each layer, the highest first; a long one goes on in the next."""
    lines = []
    for height in range(max(map(layer, sources.crate_names())), 0, -1):
        line = f"{height:2} "
        for crate in (each for each in sources.crate_names() if layer(each) == height):
            if len(line) + len(crate) > WIDTH:
                lines.append(line)
                line = "   "
            line += f" {crate}"
        lines.append(line)
    return "\n".join(lines)


def faults():
    block = re.search(r"^```\n(.*?)\n```$", DOCUMENT.read_text(), re.M | re.S)
    if not block or block[1] != picture():
        yield DOCUMENT, "its picture isn't that of crates.txt, which python3 tools/checks/picture.py prints"


if __name__ == "__main__":
    print(picture())
