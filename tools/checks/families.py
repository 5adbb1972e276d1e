"""The families of commands, as the definitions of the top call name them."""

import re

from . import sources

TOP = "olap_run"
QUESTIONS = sources.CRATES / TOP / "specs" / "Questions.antt"

# The crate of each family, by the name that it has there, and the constructor of its questions.
_TEXT = QUESTIONS.read_text()
ALIASES = {alias: crate for crate, alias in re.findall(r"^use Rattle\.(\w+)\.specs\.Questions as (\w+)", _TEXT, re.M)}
ASKED = dict((alias, asked) for asked, alias in re.findall(r"^  (Of\w+) : (\w+)\.Question", _TEXT, re.M))
FAMILIES = tuple(ALIASES[alias] for alias in ASKED)


def of(family):
    """The name of a family's definitions in those of the top call, and the constructor of its questions."""
    alias = next(alias for alias, crate in ALIASES.items() if crate == family)
    return alias, ASKED[alias]
