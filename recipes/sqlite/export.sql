-- Writes instance.csv and facts.csv from the views member, lies_in and fact, both of one moment. Parents are joined
-- by semicolons. It stops if a row of lies_in would be lost: its child is no member, or its parent is null.
.bail on
begin;
create temp table orphan (
    child text, parent text, constraint "lies_in has a row of no member, or with no parent" check (false)
);
.mode list
select 'lies_in: child ' || quote(child) || ', parent ' || quote(parent) from lies_in
    where parent is null or child is null or child not in (select id from member where id is not null) limit 20;
insert into orphan select child, parent from lies_in
    where parent is null or child is null or child not in (select id from member where id is not null) limit 1;
drop table orphan;
-- The headers are rows, for sqlite3 prints none where there are no rows.
.headers off
.mode csv
.once instance.csv
select id, category, name, parents
from (
    select 0 as part, 'id' as id, 'category' as category, 'name' as name, 'parents' as parents
    union all
    select 1, id, category, name, coalesce(up.parents, '')
    from member
    left join (select child, group_concat(parent, ';') as parents from lies_in group by child) as up
        on up.child = member.id
) order by part, id;
.once facts.csv
select member, value
from (select 0 as part, 'member' as member, 'value' as value union all select 1, member, value from fact)
order by part, member, value;
commit;
