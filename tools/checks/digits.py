"""No file of src/ or specs/ has a limit as a number; the limits' own files have them, and all others name them.

The limits are those of crates/olap_base/specs/Limits.antt. Numbers of bits and of words of a set aren't read, nor powers of 2.
"""

import re

from . import sources

LIMITS = sources.CRATES / "olap_base" / "specs" / "Limits.antt"

# Other numbers that are equal to a limit, by crate, with what they are.
OTHERS = {
    "olap_bits": {"64": "the bits of a word of a set"},
    "olap_check": {"1024": "the places of a block", "1,024": "the places of a block"},
    "olap_clauses": {
        "64": "what is added to a score, and the levels from which on clauses are worth the same",
        "4096": "the rounds of a search",
    },
    "olap_cube_summ": {"256": "the masks over eight sources"},
    "olap_cube_views": {"65_536": "the rows of a lot"},
    "olap_cubes": {"65_536": "the bytes of a piece"},
    "olap_facts": {"256": "the facts of a batch"},
    "olap_graph": {"64": "the bits of a word of a set"},
    "olap_legal": {
        "256": "the most cells of a row",
        "65535": "the slot of no category",
        "65_535": "the slot of no category",
        "4294967295": "the place of no member",
        "4_294_967_295": "the place of no member",
    },
    "olap_names": {"65535": "what 16 bits hold"},
    "olap_parities": {"64": "the bits of a word, the words of a row, and the clauses of a chain that are looked at"},
    "olap_pool": {"256": "the room with which a pool is full"},
    "olap_generate": {"64": "the stores for each group of cities"},
    "olap_reading": {"65_536": "the bytes of a piece"},
    "olap_totals": {"65_536": "the bytes of a piece"},
    "olap_trail": {"65535": "what 16 bits hold"},
    "olap_draft": {"256": "the share of the greatest score at which scores begin anew"},
}

# A number that is read as a limit has two digits at least: smaller ones mean too much else.
NUMBER = re.compile(r"(?<![\w.])\d[\d_,]*\d(?![\w.])")


def faults():
    limits = {int(number) for number in re.findall(r"= (\d\d+)$", LIMITS.read_text(), re.M)}
    limits |= {number - 1 for number in limits if number > 1000}
    for file in sorted([*sources.CRATES.glob("*/specs/**/*.antt"), *sources.CRATES.glob("*/src/**/*.rt")]):
        crate = file.relative_to(sources.CRATES).parts[0]
        text = file.read_text()
        if crate in sources.TESTS or file.stem.lower() in ("limits", "tests"):
            continue
        for place, line in enumerate(text.splitlines(), 1):
            line = re.sub(r"\d+ bits|2 ?\^ ?\d+|64 \* W|ghost use.*", "", line)
            for number in NUMBER.findall(line):
                if int(re.sub(r"\D", "", number)) in limits and number not in OTHERS.get(crate, ()):
                    yield file, f"line {place}: a limit as a number: {number}"
