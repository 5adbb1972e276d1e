"""No number stands for "none" in src/ or specs/: no false id, no greatest number of a width, and no 0 of an option without a value.

An `Option` says that there is nothing. What has the place of one, such as to fill memory, is listed here with its reason. A number
that is compared by `<`, `<=` and the like is a bound, and no such value.
"""

import re
from pathlib import Path

from . import sources

GREATEST = r"\bu(?:8|16|32)::MAX\b|\b65_?535\b|\b4_?294_?967_?295\b|\b0x[Ff]{4}(?:_?[Ff]{4})?\b"
FALSE = re.compile(rf"(?<![^=-]> )(?<![<≤] )(?<![<>]= )(?:{GREATEST})(?! [<>≤])|unwrap_or \(.*\) \(?(?:pos )?0\b|\bunwrap_or\(&?0\)")
ZERO = "unwrap_or .. 0"  # what is said of the last two

NO_FAULT = "stands only where the record has no fault, and so the option a value"

# What stands nevertheless, by file: why.
OTHERS = {
    "olap_ast/specs/Constants.antt": {ZERO: "the name of a member of a category of numbers is a numeral, so the 0 is never read"},
    "olap_base/specs/Limits.antt": {"4294967295": "the most facts of a file, and the greatest count of a stored row"},
    "olap_base/src/limits.rt": {"4_294_967_295": "the most facts of a file, and the greatest count of a stored row"},
    "olap_clauses/src/analysing.rt": {"u32::MAX": "no variable is left out, where else one is"},
    "olap_clauses/src/watching.rt": {"u32::MAX": "the end of a list of nodes of 8 bytes, whose reading is most of a search"},
    "olap_cube_views/specs/CubeFactText.antt": {ZERO: NO_FAULT},
    "olap_encoding/src/formulas.rt": {"u16::MAX": "the last place: one more would wrap"},
    "olap_facts/specs/FactText.antt": {ZERO: NO_FAULT},
    "olap_instance/specs/InstanceText.antt": {ZERO: NO_FAULT},
    "olap_instance/specs/Members.antt": {ZERO: NO_FAULT},
    "olap_legal/specs/Rows.antt": {"4294967295": "an empty cell of a row of 4 bytes a cell"},
    "olap_legal/specs/Slots.antt": {"65535": "an empty cell of a table of 2 bytes a cell"},
    "olap_legal/src/rising.rt": {"4_294_967_295": "an empty cell of a row of 4 bytes a cell"},
    "olap_legal/src/slots.rt": {"65_535": "an empty cell of a table of 2 bytes a cell"},
    "olap_view/specs/Columns.antt": {"0xFFFF_FFFF": "an empty cell of a column of 4 bytes for each member"},
    "olap_view/specs/StoreText.antt": {ZERO: NO_FAULT},
    "olap_view/src/columns.rt": {"0xFFFF_FFFF": "an empty cell of a column of 4 bytes for each member"},
}


def found():
    """Each such number: its file, the line's place, and the number."""
    for file in sorted([*sources.CRATES.glob("*/specs/**/*.antt"), *sources.CRATES.glob("*/src/**/*.rt")]):
        if file.relative_to(sources.CRATES).parts[0] in sources.TESTS:
            continue
        for place, line in enumerate(file.read_text().splitlines(), 1):
            for value in FALSE.findall(re.sub(r"--.*|//.*", "", line)):
                yield file, place, ZERO if value.startswith("unwrap_or") else value


def faults():
    for file, place, value in found():
        if value not in OTHERS.get(str(file.relative_to(sources.CRATES)), ()):
            yield file, f"line {place}: a number that stands for none: {value}"


def notes():
    """Entries of the list that can be taken out."""
    standing = {(str(file.relative_to(sources.CRATES)), value) for file, _, value in found()}
    for file, values in OTHERS.items():
        for value in values:
            if (file, value) not in standing:
                yield Path(__file__), f"{file} no longer has {value}: the entry can go"
