"""No definition spells a text by the numbers of its bytes; crates/olap_base/specs/Bytes.antt names bytes, and `codes` words.

What is looked for is the number of a byte that stands in a list, is compared, or parts or fills a text.
"""

import re

from . import sources

NAMES = sources.CRATES / "olap_base" / "specs" / "Bytes.antt"
BYTE = r"(9|10|13|3[2-9]|4\d|5\d|6\d|7\d|8\d|9\d|1[01]\d|12[0-7]|239)"
SPELLED = re.compile(
    rf"(?<![\w.^]){BYTE} ∷|∷ {BYTE}(?=\)|\s|$)|(?:==|≡) {BYTE}(?![\w.])|(?<![\w.^]){BYTE} ≤"
    rf"|(?:pieces_of|onto_first|join_with_byte|atom_word \w+ \w+) {BYTE}(?![\w.])|replicate \w+ {BYTE}(?![\w.])"
    rf"|nat_l[et] \w+ {BYTE}(?![\w.])"
)

# Numbers that are no bytes, by file.
OTHERS = {
    "olap_base/specs/Graph.antt": {"48", "57", "65", "90", "97", "122"},  # the first and the last letter and digit
}


def faults():
    for file in sorted(sources.CRATES.glob("*/specs/**/*.antt")):
        if file == NAMES or file.relative_to(sources.CRATES).parts[0] in sources.TESTS:
            continue
        others = OTHERS.get(str(file.relative_to(sources.CRATES)), ())
        for place, line in enumerate(file.read_text().splitlines(), 1):
            line = re.sub(r"\d+ \^ \d+|\^ \d+|--.*|^use .*|\w+ \* \d+|\d+ \* \w+", "", line)
            for found in SPELLED.finditer(line):
                number = next(each for each in found.groups() if each)
                if number not in others:
                    yield file, f"line {place}: a byte as a number: {number}"
