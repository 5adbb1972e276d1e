"""What stands in the crates: functions with the labels of their clauses, exported names, definitions, edits."""

import re
from dataclasses import dataclass, field
from functools import cache
from pathlib import Path

TOP = Path(__file__).resolve().parent.parent.parent
CRATES = TOP / "crates"

# The crates that are tests of others.
TESTS = ("olap_rows", "olap_search_tests", "olap_tests")

FUNCTION = re.compile(r"( *)(?:pub(?:\([a-z]+\))? )?(?:const )?(?:unsafe )?fn (\w+)")
BLOCK = re.compile(r"(?:pub )?(impl|trait)\b\s*(?:<[^{]*?>)?\s*([^{;]*)")
CLAUSE = re.compile(r"\s*ensures (\w*) ?\{")


@dataclass
class Function:
    """A function of a crate: the type, or the trait, that it belongs to, if any, and the labels of its clauses."""

    name: str
    module: str
    owner: str = ""
    trait: str = ""
    public: bool = False
    labels: list = field(default_factory=list)  # an unlabelled clause has the label ""
    file: Path | None = None
    lines: list = field(default_factory=list)  # from its first line to the last one of its body
    crate: str = ""

    @property
    def key(self):
        """What tells it from all others, but from one of the same name and type."""
        return self.crate, self.owner, self.name


def crate_names():
    return sorted(folder.name for folder in CRATES.iterdir() if (folder / "src").is_dir())


@cache
def below(crate):
    """The crates that a crate stands on, as its line of crates.txt lists them."""
    lines = (TOP / "crates.txt").read_text().splitlines()
    return next(line.split(":")[1].split() for line in lines if line.startswith(f"{crate}:"))


def module_of(crate, file):
    """The module path of a source file, with slashes; nothing for the root."""
    path = file.relative_to(CRATES / crate / "src").with_suffix("")
    return "" if path.name in ("lib", "main") else str(path).removesuffix("/mod")


def type_named(text):
    """The name in front of a type's arguments: `&'a List<T>` is `List`."""
    found = re.search(r"[A-Za-z_]\w*", re.sub(r"&|'\w+|\bmut\b|\bdyn\b", "", text.split("<")[0].split("::")[-1]))
    return found.group(0) if found else ""


def trait_named(text):
    """The name of a trait, and those of its arguments behind it: `Judge<Leaf>` is `JudgeLeaf`."""
    return "".join(re.findall(r"(?<!['\w])[A-Za-z_]\w*", text.split("::")[-1]))


def owner_of(line):
    """Of a line that opens an impl or a trait: the type or the trait, the trait of an impl, and whether it is a trait's."""
    kind, rest = BLOCK.match(line).groups()
    trait, _, owner = re.sub(r"\bwhere\b.*", "", rest).rpartition(" for ")
    return type_named(owner), trait_named(trait), kind == "trait" or bool(trait)


@cache
def functions(crate):
    """All functions of a crate. Its sources are formatted, so a body ends where a line closes at its indent."""
    found = []
    for file in sorted((CRATES / crate / "src").rglob("*.rt")):
        owner, trait, is_trait, current, last = "", "", False, None, None
        for line in file.read_text().splitlines():
            if BLOCK.match(line) and not line.startswith(" "):
                owner, trait, is_trait = owner_of(line)
            elif line.startswith("}"):
                owner, trait, is_trait, current = "", "", False, None
            if head := FUNCTION.match(line):
                public = is_trait or line.lstrip().startswith("pub ")
                current = Function(head.group(2), module_of(crate, file), owner, trait, public, file=file, crate=crate)
                found.append(current)
                last = current
            elif current and (clause := CLAUSE.match(line)):
                current.labels.append(clause.group(1))
            elif current and re.match(r" *(\{|\{\}|\})$", line):
                current = None
            if last:
                last.lines.append(line)
                if line == re.match(" *", last.lines[0]).group(0) + "}" or line.endswith("{}"):
                    last = None
    return found


@cache
def exports(crate):
    """The names that a crate's root file gives to others."""
    root = CRATES / crate / "src" / "lib.rt"
    text = re.sub(r"//.*", "", root.read_text()) if root.exists() else ""
    names = set(re.findall(r"^pub (?:fn|struct|enum|trait|const|type) (\w+)", text, re.M))
    for used in re.findall(r"^pub use ([^;]*);", text, re.M | re.S):
        listed = re.search(r"\{(.*)\}", used, re.S)
        items = listed.group(1).split(",") if listed else [used]
        names.update(item.split(" as ")[-1].split("::")[-1].strip() for item in items)
    return names - {""}


@cache
def definitions():
    """The names that the specs/ of all crates declare, fields and constructors included."""
    names = set()
    for file in CRATES.glob("*/specs/**/*.antt"):
        for line in file.read_text().splitlines():
            if found := re.match(r" *(?:abbrev |unfoldable )?(?:pub )?(?:record |data )?([^\s:(){}]+)", line):
                names.add(found.group(1))
    return names


@cache
def edits(crate):
    """The must-fail edits of a crate by their names: those that the gate tries, and those of more-edits."""
    return {file.stem: file for folder in ("must-fail", "more-edits") for file in (CRATES / crate / folder).glob("*.edit")}
