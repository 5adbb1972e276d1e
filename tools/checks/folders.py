"""Each folder of proofs/ belongs to a function of src/.

The folder's path is the function's: the module, then the type of a method, then the function. The module of a type's
own method is the type's, wherever the method stands. After the type of a trait's method come the names of the trait and
of its arguments, and the module is that of the impl. A folder `+NAME` belongs to functions that call each other: NAME is
one of them, or what `#[cycle(NAME)]` calls them.
"""

import re

from . import sources


def cycles(crate):
    """The folders of cycles that have a name of their own. A cycle that no module holds stands at the top."""
    for file in sorted((sources.CRATES / crate / "src").rglob("*.rt")):
        module = sources.module_of(crate, file)
        for name in re.findall(r"#\[cycle\((\w+)\)\]", file.read_text()):
            yield f"+{name}"
            yield f"{module}/+{name}"
            for owner in {function.owner for function in sources.functions(crate) if function.owner and function.module == module}:
                yield f"{module}/{owner}/+{name}"


def homes(crate):
    """The modules of the crate's types."""
    for file in sorted((sources.CRATES / crate / "src").rglob("*.rt")):
        for name in re.findall(r"^(?:pub(?:\(crate\))? )?(?:struct|enum) (\w+)", file.read_text(), re.M):
            yield name, sources.module_of(crate, file)


def wanted(crate):
    """The paths that folders with proofs of this crate may have."""
    paths, modules = set(cycles(crate)), dict(homes(crate))
    for function in sources.functions(crate):
        module = function.module if function.trait else modules.get(function.owner, function.module)
        start = f"{module}/" if module else ""
        owner = f"{function.owner}{function.trait}/" if function.owner else ""
        paths.update({f"{start}{owner}{function.name}", f"{start}{owner}+{function.name}"})
    return paths


def faults():
    for crate in sources.crate_names():
        folder = sources.CRATES / crate / "proofs"
        paths = wanted(crate)
        # A folder that only leads to others needs no function of its own.
        for file in sorted(folder.glob("*/**/*.antt")):
            path = str(file.parent.relative_to(folder))
            if path not in paths:
                yield file, f"no function of {crate} is {path}"
