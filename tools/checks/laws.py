"""Each law has an item in docs/proved/: each function with an empty body that a crate gives to others."""

from . import register, sources


def is_law(function):
    """A function of no type that takes nothing and does nothing: its contract is all that it is."""
    text = "\n".join(function.lines)
    return not function.owner and f"fn {function.name}()" in text and (text.endswith("{\n}") or text.endswith("{}"))


def faults():
    rows = register.rows()
    named = {call for cells in rows for call in register.NAMES.findall(cells[1])}
    for crate in sources.crate_names():
        for function in sources.functions(crate):
            call = f"{crate}::{function.name}"
            if is_law(function) and function.name in sources.exports(crate) and call not in named:
                yield register.REGISTER, f"no row has the law {call}"
