"""Certificates, and texts that are none, written by hand from docs/CERTIFICATES.md, each with the verdict that it must get.

A row is: what it shows; the line that is rejected, or 0 for a certificate; the schema; the target and the sources; the lines,
separated by ` / `, or the text as bytes.
"""


def schema(edges: str, *constraints: str) -> bytes:
    """A schema of edges, whose categories are declared in the order in which they come."""
    pairs = [edge.split() for edge in edges.split(", ")]
    categories = dict.fromkeys(category for pair in pairs for category in pair if category != "All")
    lines = ["schema 1", *(f"category {each}" for each in categories), *(f"edge {child} {parent}" for child, parent in pairs)]
    return "".join(line + "\n" for line in [*lines, *(f"constraint {each}" for each in constraints)]).encode()


def numbers(*constraints: str) -> bytes:
    """A schema of one category, whose names are numbers."""
    lines = ["schema 2", "category S number", "edge S All", *(f"constraint S: {each}" for each in constraints)]
    return "".join(line + "\n" for line in lines).encode()


def text(lines: str) -> bytes:
    return "".join(line + "\n" for line in lines.split(" / ")).encode()


SCHEMAS = {
    "chain": schema("Store City, City All"),
    "loop": schema("A B, B A, A All"),
    "cycle": schema("S A, A B, B A, A All, B All"),
    "triangle": schema("S A, S B, A B, B All", "S: S_A"),
    "fork": schema("S A, S B, A All, B All", "S: S_A"),
    "free": schema("S A, S B, A All, B All"),
    "bottoms": schema("T A, S A, A All"),
    "named": schema("S C, S D, C All, D All", 'S: S_C <-> S = "a"', 'S: S = "a"'),
    "bytes": schema("S All", 'S: S = "é" | S = "z" | S = "nk"', 'S: !(S = "é")', 'S: !(S = "z")', 'S: !(S = "nk")'),
    "above": schema("S C, C D, D All", "S: S.C -> true", "C: false", 'D: D = "x"', 'S: S.D = "y"'),
    "top": schema("S All", 'S: S.All = "all" -> false', 'S: S.All = "x"'),
    "connectives": schema(
        "S A, S B, A All, B All",
        "S: !(S.A | !S.A)",  # unknown, though it is false whatever S.A is
        "S: S_A -> S_B -> false",  # to the right: false if both are present
        "S: S_A ^ S_B",
        "S: one(false, S_A, S_B)",
        "S: S_A & S_B | S_A & !S_B",  # `&` before `|`
        "S: !one()",
        "S: one()",
    ),
    "letters": schema("S All", 'S: S = "a" | S = "B"', 'S: !(S = "B")', 'S: !(S = "a")'),
    "last": schema("S E, E T, T X1, X1 X2, X2 X3, X3 X4, X4 All"),
    "round": schema("S A, S C, A B, B C, C All", "S: S_A", "S: S_C"),
    "no number": numbers(),
    "one number": numbers("S = 5"),
    "three numbers": numbers("S = 4", "!S = 3 & !S = 9"),
    "layers": schema("L0 A1, L0 B1, A1 L1, B1 L1, L1 A2, L1 B2, A2 L2, B2 L2, L2 All"),
}

LONG, SHORT = "certificate 1 / bottom S / ", "short certificate 1 / bottom S / "
CHAIN = "certificate 1 / bottom Store / edge Store City / dead Store / question"
BRIEF = "short certificate 1 / bottom Store / "
FORK = "edge S A / constraint 1 / edge A All / dead A / question"
LOOSE = f"edge B All / {FORK} / edge S B / loose B All / {FORK}"
TWO = "certificate 1 / bottom T / edge T A / dead T / question / bottom S / edge S A / dead S / question"
CYCLE = "edge S A / dead S / edge A All / edge A B / dead A / edge B A / edge B All / dead B / question / cycle / question"
SHORTCUT = "edge S A / constraint 1 / edge A B / dead A / edge S B / question / shortcut"
NAMES = "name S / constraint 2 / edge S C / constraint 1 / edge C All / dead C / question"
BYTES = "name S / constraint 1 / constraint 4 / constraint 3 / constraint 2"
ABSENT = "name D / constraint 4 / constraint 4 / edge S C / dead S / constraint 2"
ALL_DECIDED = "edge S A / edge S B / constraint 4 / constraint 5 / edge S B / constraint 7 / constraint 3"
DENIED = "reach Store City / edge Store City / dead Store / steps Store City / question"
ONE = "edge S All / dead S / question"
LAYERS = (
    "short certificate 1 / bottom L0 / reach L0 L2 / question / reach L1 L2 / reach A1 L2 / reach B1 L2 / steps L0 L2 / steps B1 L2"
    " / steps A1 L2 / reach L0 L1 / loose L1 / question"
)

CERTIFICATES = [
    ("a chain", 0, "chain", "City Store", CHAIN),
    ("a tree of the long form in the short one", 0, "chain", "City Store", f"short {CHAIN}"),
    ("in the short form all is reached", 0, "chain", "All Store", f"{BRIEF}question"),
    ("no bottom category", 0, "loop", "All", "certificate 1"),
    ("no bottom category, short", 0, "loop", "All", "short certificate 1"),
    ("two bottom categories", 0, "bottoms", "A T S", TWO),
    ("a cycle", 0, "cycle", "All A", LONG + CYCLE),
    ("a shortcut", 0, "triangle", "B A", LONG + SHORTCUT),
    ("a loose edge, and an edge decided below both sides of another", 0, "fork", "All A", LONG + LOOSE),
    ("a loose category", 0, "fork", "All A", SHORT + LOOSE.replace("loose B All", "loose B")),
    ("names", 0, "named", "All C", LONG + NAMES),
    ("names in byte order, after the fresh name nk_", 0, "bytes", "All", LONG + BYTES),
    ("a constraint of a category above", 0, "above", "All", f"{LONG}edge S C / dead S / constraint 2"),
    ("the name of a category that may be absent", 0, "above", "All", LONG + ABSENT),
    ("the name of All is decided", 0, "top", "All", f"{LONG}constraint 2"),
    ("the name of All where it has a member", 0, "top", "All", f"{LONG}edge S All / dead S / constraint 1"),
    ("connectives of unknown operands", 0, "connectives", "All", f"{LONG}edge S A / constraint 5 / edge S B / constraint 7 / constraint 2"),
    ("connectives of known operands", 0, "connectives", "All", LONG + ALL_DECIDED),
    ("one(..) of two that are true", 0, "connectives", "All", LONG + ALL_DECIDED.removesuffix("3") + "4"),
    ("ways, and what their steps say", 0, "layers", "L2 L1", LAYERS),
    ("a way that isn't there, along a present edge", 0, "chain", "City Store", f"{BRIEF}{DENIED}"),
    ("a way that can't begin by an absent edge", 0, "free", "A S", f"{SHORT}reach S A / question / edge S A / steps S A / question"),
    ("capital letters stand before small ones", 0, "letters", "All", f"{LONG}name S / constraint 1 / constraint 2 / constraint 3"),
    ("five sources, of which the last is on the way", 0, "last", "T X1 X2 X3 X4 E", f"{LONG}edge S E / dead S / edge E T / dead E / question"),
    ("where no number is asked, the name is 0", 0, "no number", "All S", f"{LONG}name S / {ONE}"),
    ("a number, the one below and the one above", 0, "one number", "All S", f"{LONG}name S / constraint 1 / {ONE} / constraint 1"),
    (
        "three numbers, each and the next, and the one below all", 0, "three numbers", "All S",
        f"{LONG}name S / constraint 1 / constraint 1 / {ONE} / constraint 1 / constraint 1 / constraint 1",
    ),
    ("a way to All that isn't there", 0, "chain", "All Store", f"{BRIEF}reach Store All / steps Store All / question"),
]

CHAINS = "certificate 1 / bottom Store / "
CITY_DEAD = "edge City All / edge Store City / dead Store / dead City"

OTHERS = [
    # Where the text ends.
    ("nothing", 1, "chain", "City Store", b""),
    ("only the first line", 2, "chain", "City Store", "certificate 1"),
    ("cut before its last line", 5, "chain", "City Store", CHAIN.removesuffix(" / question")),
    ("no LF at the end", 5, "chain", "City Store", text(CHAIN)[:-1]),
    ("no LF at the end, and a byte more", 5, "chain", "City Store", text(CHAIN)[:-1] + b"x"),
    ("no LF after the first line", 1, "loop", "All", b"certificate 1"),
    ("a line behind the end", 6, "chain", "City Store", f"{CHAIN} / question"),
    ("a blank line behind the end", 6, "chain", "City Store", text(CHAIN) + b"\n"),
    ("a piece behind the end", 6, "chain", "City Store", text(CHAIN) + b" "),
    ("a certificate twice", 6, "chain", "City Store", f"{CHAIN} / {CHAIN}"),
    ("a bottom category too many", 2, "loop", "All", "certificate 1 / bottom A"),
    ("a tree too many", 6, "chain", "City Store", CHAIN.replace("question", "question / dead Store")),
    ("a tree too few", 7, "bytes", "All", LONG + BYTES.removesuffix(" / constraint 2")),
    # Bytes.
    ("CR LF", 1, "chain", "City Store", text(CHAIN).replace(b"\n", b"\r\n")),
    ("a CR", 3, "chain", "City Store", text(CHAIN).replace(b"City\n", b"City\r\n")),
    ("two spaces", 3, "chain", "City Store", CHAIN.replace("edge Store", "edge  Store")),
    ("a space at the end of a line", 4, "chain", "City Store", CHAIN.replace("dead Store", "dead Store ")),
    ("a space before a line", 4, "chain", "City Store", CHAIN.replace("dead", " dead")),
    ("a tab", 4, "chain", "City Store", CHAIN.replace("dead ", "dead\t")),
    ("a blank line", 3, "chain", "City Store", CHAIN.replace("edge", " / edge", 1).replace(" /  / ", " /  / ")),
    ("a comment", 3, "chain", "City Store", CHAIN.replace("edge", "# edges / edge")),
    ("a byte order mark", 1, "chain", "City Store", b"\xef\xbb\xbf" + text(CHAIN)),
    ("a byte that is no text", 5, "chain", "City Store", text(CHAIN).replace(b"question", b"question\xff")),
    ("a NUL", 4, "chain", "City Store", text(CHAIN).replace(b"dead", b"dead\0")),
    # First lines.
    ("another version", 1, "chain", "City Store", CHAIN.replace("1", "2", 1)),
    ("a version with a leading zero", 1, "chain", "City Store", CHAIN.replace("1", "01", 1)),
    ("a capital", 1, "chain", "City Store", CHAIN.replace("c", "C", 1)),
    ("the other bottom category first", 2, "bottoms", "A T S", TWO.replace("bottom T", "bottom S")),
    ("no bottom category's line", 2, "chain", "City Store", CHAIN.replace(" / bottom Store", "")),
    ("a category that is no bottom category", 2, "chain", "City Store", CHAIN.replace("bottom Store", "bottom City")),
    ("only the first of two bottom categories", 6, "bottoms", "A T S", TWO.partition(" / bottom S")[0]),
    # Lines that decide.
    ("another question", 5, "chain", "City", CHAIN),
    ("sides swapped", 5, "chain", "City Store", f"{CHAINS}edge Store City / question / dead Store"),
    ("an edge decided twice", 4, "chain", "City Store", f"{CHAINS}edge Store City / edge Store City"),
    ("an edge decided twice on the present side", 5, "chain", "City Store", f"{CHAINS}edge Store City / dead Store / edge Store City"),
    ("an edge that isn't there", 3, "chain", "City Store", f"{CHAINS}edge Store All"),
    ("an edge the other way", 3, "chain", "City Store", f"{CHAINS}edge City Store"),
    ("an edge of an unknown category", 3, "chain", "City Store", f"{CHAINS}edge Store Land"),
    ("a word too many", 3, "chain", "City Store", f"{CHAINS}edge Store City All"),
    ("a word too few", 3, "chain", "City Store", f"{CHAINS}edge Store"),
    ("a name decided twice", 4, "named", "All C", f"{LONG}name S / name S"),
    ("a name decided twice at a constant", 5, "named", "All C", f"{LONG}name S / constraint 2 / name S"),
    ("the name of All", 3, "named", "All C", f"{LONG}name All"),
    ("the name of an unknown category", 3, "named", "All C", f"{LONG}name E"),
    ("a constant before the fresh name", 4, "named", "All C", f"{LONG}name S / constraint 1"),
    ("constants in another order", 5, "bytes", "All", f"{LONG}name S / constraint 1 / constraint 3"),
    ("a way in the long form", 3, "chain", "All Store", f"{CHAINS}reach Store City"),
    ("a way decided twice", 4, "chain", "All Store", f"{BRIEF}reach Store City / reach Store City"),
    ("a way to an unknown category", 3, "chain", "All Store", f"{BRIEF}reach Store Land"),
    # Reasons.
    ("the first line again", 3, "chain", "City Store", f"{CHAINS}certificate 1"),
    ("the line of a bottom category in its tree", 3, "chain", "City Store", f"{CHAINS}bottom Store"),
    ("dead with an edge that isn't decided", 3, "chain", "City Store", f"{CHAINS}dead Store"),
    ("dead with a present edge", 5, "chain", "City Store", f"{CHAINS}edge Store City / dead Store / dead Store"),
    ("dead All", 5, "top", "All", f"{LONG}edge S All / dead S / dead All"),
    ("dead of a category that may be absent", 4, "chain", "City Store", f"{CHAINS}edge City All / dead City"),
    (
        "cycle where an edge of it isn't decided", 9, "cycle", "All A",
        f"{LONG}edge S A / dead S / edge A B / edge A All / dead A / question / cycle",
    ),
    ("cycle where there is none", 3, "chain", "City Store", f"{CHAINS}cycle"),
    ("shortcut of one edge", 5, "chain", "City Store", f"{CHAINS}edge Store City / dead Store / shortcut"),
    ("shortcut where an edge of it is absent", 8, "triangle", "B A", LONG + SHORTCUT.replace("question", "shortcut")),
    (
        "shortcut where an edge of it isn't decided", 9, "triangle", "B A",
        f"{LONG}edge S A / constraint 1 / edge S B / edge A B / dead A / question / shortcut",
    ),
    ("shortcut where its first edge isn't decided", 7, "triangle", "B A", f"{LONG}edge S A / constraint 1 / edge A B / dead A / shortcut"),
    (
        "shortcut where its last edge isn't decided", 9, "round", "C",
        f"{LONG}edge S A / constraint 1 / edge S C / constraint 2 / edge A B / dead A / shortcut",
    ),
    ("a number's neighbours left out", 7, "one number", "All S", f"{LONG}name S / {ONE}"),
    ("loose at the bottom category", 5, "chain", "City Store", f"{CHAINS}edge Store City / dead Store / loose Store City"),
    ("loose at the bottom category, short", 3, "chain", "City Store", f"{BRIEF}loose Store"),
    ("loose at the bottom category, which isn't said to reach itself", 4, "chain", "City Store", f"{BRIEF}reach Store Store / loose Store"),
    ("loose of an edge that isn't decided", 4, "fork", "All A", f"{LONG}edge S B / loose B All"),
    ("loose of an absent edge", 5, "fork", "All A", f"{LONG}edge S B / edge B All / loose B All"),
    ("loose of an edge to which edges may lead", 7, "chain", "City Store", f"{CHAINS}{CITY_DEAD} / loose City All"),
    ("loose of a category to which edges may lead", 7, "chain", "City Store", f"{BRIEF}{CITY_DEAD} / loose City"),
    ("loose of an edge in the short form", 10, "fork", "All A", SHORT + LOOSE),
    ("loose of a category in the long form", 10, "fork", "All A", LONG + LOOSE.replace("loose B All", "loose B")),
    ("loose of a category that may be absent", 4, "fork", "All A", f"{SHORT}edge S B / loose B"),
    ("steps of a way that isn't decided", 3, "chain", "All Store", f"{BRIEF}steps Store City"),
    ("steps of a way that isn't there, and may be", 4, "chain", "All Store", f"{BRIEF}reach Store City / steps Store City"),
    ("steps from a category that may be absent", 4, "chain", "All Store", f"{BRIEF}reach City All / steps City All"),
    ("steps of a category to itself", 5, "chain", "All", f"{BRIEF}reach Store Store / steps Store Store / steps Store Store"),
    ("steps where one may lead there", 5, "layers", "L2 L1", "short certificate 1 / bottom L0 / reach L0 L2 / question / steps L0 L2"),
    ("steps in the long form", 3, "chain", "All Store", f"{CHAINS}steps Store City"),
    ("a constraint of a category that may be absent", 3, "above", "All", f"{LONG}constraint 2"),
    ("a name where its category may be absent", 6, "above", "All", LONG + ABSENT.replace("edge S C", "constraint 3")),
    ("constraint 0", 3, "above", "All", f"{LONG}constraint 0"),
    ("a constraint's number with a leading zero", 5, "above", "All", f"{LONG}edge S C / dead S / constraint 02"),
    ("a constraint's number with a sign", 5, "above", "All", f"{LONG}edge S C / dead S / constraint +2"),
    ("a constraint that isn't there", 3, "above", "All", f"{LONG}constraint 5"),
    ("a constraint's number of 5,000 digits", 3, "above", "All", f"{LONG}constraint {'9' * 5000}"),
    ("a constraint that is true", 3, "above", "All", f"{LONG}constraint 1"),
    ("p | !p of an unknown p is unknown", 3, "connectives", "All", f"{LONG}constraint 1"),
    ("-> is grouped to the right", 4, "connectives", "All", f"{LONG}edge S A / constraint 2"),
    ("^ of one present edge", 6, "connectives", "All", f"{LONG}edge S A / edge S B / constraint 4 / constraint 3"),
    ("| of one that is true", 6, "connectives", "All", f"{LONG}edge S A / constraint 5 / edge S B / constraint 5"),
    ("& binds closer than |", 7, "connectives", "All", f"{LONG}edge S A / constraint 5 / edge S B / constraint 7 / constraint 5"),
    ("one(..) of one present edge", 6, "connectives", "All", f"{LONG}edge S A / edge S B / constraint 4 / constraint 4"),
    ("!one() is true", 3, "connectives", "All", f"{LONG}constraint 6"),
    ("the name of All where it may be absent", 3, "top", "All", f"{SHORT}constraint 1"),
    ("in the long form nothing is reached without edges", 3, "chain", "All Store", f"{CHAINS}question"),
    ("a question that is unknown", 4, "free", "All A", f"{LONG}edge S B / question"),
    ("a question to which the answer is no", 7, "free", "All A", f"{SHORT}edge S A / edge S B / dead S / edge B All / question"),
]
