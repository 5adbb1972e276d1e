"""The definitions of specs/, declaration by declaration, and what a statement leads to.

A declaration's lines are those that aren't blank, a comment or an import. Of a function whose way of finding its answer is
hidden only the type counts, and the type of its law: that of the same name with `_is` after it, or as LAWS says.
"""

import re
from dataclasses import dataclass, field
from functools import cache

from . import sources

# Functions that follow the program's machines, and the laws that tie them to the grammar.
LAWS = {("olap_grammar", "tokens_of"): "FoundAsCut", ("olap_grammar", "the_formula"): "FoundAsFormula"}

START = re.compile(r"(?:(?:abbrev|unfoldable) )?(?:pub )?(record |data )?([^\s:(){}]+)(?= |$)(.*)")
IMPORT = re.compile(r"use Rattle\.(olap_\w+)\.specs\.([\w.]+?)(?:\.\{([^}]*)\}| as (\w+))?;?$")


@dataclass
class Declaration:
    """A declaration: its type's lines, and those of what it is."""

    kind: str
    indent: int
    type_lines: list = field(default_factory=list)
    body: list = field(default_factory=list)


@dataclass
class Module:
    """A file of definitions: what it declares, the types of its constructors, and where other names come from."""

    declarations: dict = field(default_factory=dict)
    constructors: dict = field(default_factory=dict)
    imports: dict = field(default_factory=dict)


def imports_of(lines):
    """For each imported name, its module and its name there; for a module under another name, the module alone."""
    found = {}
    for line in lines:
        if not (parts := IMPORT.search(line)) or ".declared." in line:
            continue
        crate, path, names, alias = parts.groups()
        for name in (names or "").split(","):
            there, _, here = name.strip().partition(" as ")
            found[(here or there).split(".")[-1]] = ((crate, path), there.split(".")[-1])
        if alias:
            found[alias + "."] = ((crate, path), "")
    return found


def begins(line, indent, declaration):
    """The kind and the name of the declaration that a line begins, if it begins one."""
    head = START.match(line.strip())
    deeper = declaration and declaration.kind in ("record", "data") and indent > declaration.indent
    if not head or deeper or not (head.group(1) or head.group(3).lstrip().startswith(": ") or head.group(3) == " :"):
        return None
    return (head.group(1) or "function").strip(), head.group(2)


def add_line(declaration, line, indent):
    """A line of a declaration that is begun."""
    of_type = declaration.kind == "function" and not declaration.body and indent > declaration.indent
    (declaration.type_lines if of_type else declaration.body).append(line)


def read(file):
    """The module of a file."""
    module, current, base = Module(), None, 0
    lines = file.read_text().splitlines()
    module.imports = imports_of(lines)
    for line in lines:
        indent = len(line) - len(line.lstrip())
        words = line.split()
        if not words or words[0] in ("--", "infixl", "infixr", "infix") or line.lstrip().startswith("--"):
            continue
        if line.startswith(("use ", "pub use ")):
            continue
        if line.strip() in ("mutual", "abbrev mutual"):
            current, base = None, 2
            continue
        base = 0 if indent == 0 else base
        if indent <= base and (begun := begins(line, indent, current)):
            kind, name = begun
            current = module.declarations[name] = Declaration(kind, indent, [line])
        elif current:
            add_line(current, line, indent)
            if current.kind == "data" and (made := re.match(r"\s+([^\s:]+) :", line)):
                module.constructors[made.group(1)] = name
    return module


@cache
def modules():
    """All modules, by crate and path."""
    found = {}
    for file in sources.CRATES.glob("*/specs/**/*.antt"):
        crate = file.relative_to(sources.CRATES).parts[0]
        path = file.relative_to(sources.CRATES / crate / "specs").with_suffix("")
        found[crate, ".".join(path.parts)] = read(file)
    return found


def resolve(module, token):
    """The declaration that a token of a module means, if it is one of ours."""
    here = modules().get(module)
    if here is None:
        return None
    if token in here.declarations:
        return module, token
    if token in here.constructors:
        return module, here.constructors[token]
    if f"◌{token}◌" in here.declarations:
        return module, f"◌{token}◌"
    return None


def names_in(lines):
    """The tokens of some lines, texts and remarks aside; of `a.b` both `a` and `a.b`."""
    for line in lines:
        for token in re.split(r"[\s(){},;\[\]]+", re.sub(r'".*?"', "", line.split(" -- ")[0])):
            yield token
            if "." in token:
                yield token.split(".")[0]


def mentioned(module, imports, lines):
    """The declarations that some lines of a module mention."""
    for token in names_in(lines):
        head, _, rest = token.partition(".")
        if found := resolve(module, token):
            yield found
        elif token in imports or f"◌{token}◌" in imports:
            there, name = imports.get(token) or imports[f"◌{token}◌"]
            if found := resolve(there, name):
                yield found
        elif rest and head + "." in imports and (found := resolve(imports[head + "."][0], rest.split(".")[0])):
            yield found


def law_of(module, name):
    """The law of a hidden function, if the function is hidden."""
    crate, _ = module
    if (crate, name) in LAWS:
        places = [m for m in modules() if m[0] == crate and LAWS[crate, name] in modules()[m].declarations]
        return places[0], LAWS[crate, name]
    law = f"{name}_is"
    return (module, law) if law in modules()[module].declarations else None


def believed(starts, cut=None):
    """The lines to believe of each declaration that these lead to, themselves included. Of a declaration that is cut only the
    lines that are given count, and only these lead on.
    """
    seen, left = {}, list(starts)
    while left:
        module, name = place = left.pop()
        if place in seen:
            continue
        here = modules()[module]
        declaration = here.declarations[name]
        law = law_of(module, name)
        is_law = name.endswith("_is") and name.removesuffix("_is") in here.declarations
        lines = declaration.type_lines if law or is_law else declaration.type_lines + declaration.body
        lines = (cut or {}).get(place, lines)
        seen[place] = len(lines)
        left += [law] if law else []
        left += mentioned(module, here.imports, lines)
    return seen
