-- Writes what the program reads, all of one moment: instance.csv, facts.csv with all sales, the number of the last
-- change, how many sales there are and their sum, and of the changes after number :after the sales that came, those
-- that went, and the rows that may have changed unseen. A sale that came and went meanwhile is in neither file. It
-- stops if a row of lies_in would be lost.
.bail on
begin;
create temp table orphan (
    child text, parent text, constraint "lies_in has a row of no member, or with no parent" check (false)
);
.mode list
select 'lies_in: child ' || quote(child) || ', parent ' || quote(parent) from lies_in
    where parent is null or child is null or child not in (select id from member where id is not null) limit 20;
insert into orphan select child, parent from lies_in
    where parent is null or child is null or child not in (select id from member where id is not null) limit 1;
drop table orphan;
create temp table net as
    select member, value, sum(case kind when 'came' then 1 else -1 end) as times
    from change where id > :after and kind in ('came', 'went') group by member, value;
-- The headers are rows, for sqlite3 prints none where there are no rows.
.headers off
.mode csv
.once instance.csv
select id, category, name, parents
from (
    select 0 as part, 'id' as id, 'category' as category, 'name' as name, 'parents' as parents
    union all
    select 1, id, category, name, coalesce(up.parents, '')
    from member
    left join (select child, group_concat(parent, ';') as parents from lies_in group by child) as up
        on up.child = member.id
) order by part, id;
.once facts.csv
select member, value
from (select 0 as part, 'member' as member, 'value' as value union all select 1, member, value from fact)
order by part, member, value;
.once came.csv
with recursive came as (
    select member, value, times from net where times > 0
    union all select member, value, times - 1 from came where times > 1
)
select member, value
from (select 0 as part, 'member' as member, 'value' as value union all select 1, member, value from came)
order by part, member, value;
.once went.csv
with recursive went as (
    select member, value, -times as times from net where times < 0
    union all select member, value, times - 1 from went where times > 1
)
select member, value
from (select 0 as part, 'member' as member, 'value' as value union all select 1, member, value from went)
order by part, member, value;
.once anew
select distinct member from change where id > :after and kind = 'anew';
.mode list
.once last
select coalesce(max(id), 0) from change;
.once sales
select count(*) || ',' || coalesce(sum(value), 0) from fact;
commit;
