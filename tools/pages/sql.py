"""The statement by which a database computes a target's view from the sources' views, as recipes have them."""

from __future__ import annotations

from typing import Sequence

TAKEN = """create view v_{target} as
with recursive up(member, above) as (
    select id, id from member where category in ({names})
    union
    select up.member, lies_in.parent from up join lies_in on lies_in.child = up.above
)
select up.above as member, sum(v.count) as count, sum(v.sum) as sum, min(v.least) as least, max(v.greatest) as greatest
from (
{rows}
) as v
join up on up.member = v.member
join member on member.id = up.above and member.category = '{target}'
group by up.above;
"""
TAKEN_BY_ALL = """create view v_All as
select 'all' as member, sum(v.count) as count, sum(v.sum) as sum, min(v.least) as least, max(v.greatest) as greatest
from (
{rows}
) as v
having count(*) > 0;
"""


def statement(target: str, sources: Sequence[str]) -> str:
    rows = "\n    union all\n".join(f"    select member, count, sum, least, greatest from v_{source}" for source in sources)
    names = ", ".join(f"'{source}'" for source in sources)
    return (TAKEN_BY_ALL if target == "All" else TAKEN).format(target=target, names=names, rows=rows)
