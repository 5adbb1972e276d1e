"""The table of limits in docs/FORMATS.md says what crates/olap_base/specs/Limits.antt says, in its words and numbers.

A row begins with the remark that stands above a limit there, and ends with its number. Limits of what isn't built yet may be
left out.
"""

import re

from . import sources

LIMITS = sources.CRATES / "olap_base" / "specs" / "Limits.antt"
FORMATS = sources.TOP / "docs" / "FORMATS.md"


def faults():
    limits = re.findall(r"^-- (.*)\nabbrev pub (\w+) : .*\n\2 = (\d+)$", LIMITS.read_text(), re.M)
    section = FORMATS.read_text().partition("\n## Limits\n")[2].partition("\n## ")[0]
    rows = re.findall(r"^\| (.*) \| ([\d,]+) \|$", section, re.M)
    if not limits or not rows:
        yield FORMATS, "no limit was read"
    for what, number in rows:
        if not any(what.startswith(said) and int(number.replace(",", "")) == int(value) for said, _, value in limits):
            yield FORMATS, f"specs/Limits.antt has no such limit: {what}, {number}"
