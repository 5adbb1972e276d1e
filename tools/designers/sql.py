"""The SQL by which a database computes a target's view from the sources' views, if the program says yes.

    olap-tools sql SCHEMA TARGET SOURCE..

The views are v_SOURCE(member, count, sum, least, greatest), over member(id, category) and lies_in(child, parent), as the recipes
have them; SQLite and PostgreSQL take the statement. After a no only the counterexample is printed, as remarks, with status 1.
"""

from __future__ import annotations

import argparse

from pages import program, sql
from pages.program import Fault

from . import asking
from .asking import SCHEMA

def parser() -> argparse.ArgumentParser:
    words = argparse.ArgumentParser(prog="olap-tools sql", description="a target's view from views, as SQL", allow_abbrev=False)
    words.add_argument("schema", metavar="SCHEMA")
    words.add_argument("target", metavar="TARGET")
    words.add_argument("sources", nargs="+", metavar="SOURCE")
    return words


def main(words: list[str]) -> None:
    chosen = parser().parse_args(words)
    with program.opened() as ask:
        asking.schema_in(ask, chosen.schema)
        answer = ask.must("summarizable", SCHEMA, chosen.target, *chosen.sources, ends=(0, 1))
    named = f"{chosen.target} from {' '.join(chosen.sources)}"
    if answer.status == 1:
        program.write_out(f"-- {named}: olap says no\n" + "".join(f"-- {line}\n" for line in answer.text.splitlines()))
        raise Fault(f"{named}: olap says no, so there is no such view", 1)
    remark = f"-- {named}: olap says yes, for every legal instance of the schema\n"
    program.write_out(remark + sql.statement(chosen.target, tuple(chosen.sources)))
