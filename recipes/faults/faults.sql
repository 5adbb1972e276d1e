-- Prints what is wrong with the views member, lies_in and fact, before they are exported: kinds of faults with how
-- many there are and an example of each. It reads the schema's edges from edges.txt, a child and a parent on each line. The
-- program would report only the first fault. A comparison with null is never true, so each kind asks for nulls by
-- name. The last kind is a hint, and no fault.
.bail on
create temp table edge (child text not null, parent text not null);
.mode csv
.separator " "
.import edges.txt edge
.mode list
.separator " | "
create temp table known as select id, min(category) as category from member where id is not null group by id;
create unique index temp.by_id on known (id);
select 'id twice', id, count(*) from member where id is not null group by id having count(*) > 1 or id = 'all' limit 20;
select 'bad id', quote(id), count(*), min(category) from member
    where id is null or id = '' or instr(id, ';') > 0 or length(cast(id as blob)) > 255 group by id limit 20;
select 'long name', category, count(*), min(id) from member where length(cast(name as blob)) > 255 group by category;
select 'no such category', quote(category), count(*), quote(min(id)) from member
    where category is null or category not in (select child from edge) group by category;
select 'unknown parent', quote(parent), count(*), quote(min(child)) from lies_in
    where parent is null or (parent <> 'all' and not exists (select 1 from known where id = parent)) group by parent limit 20;
select 'unknown child', quote(child), count(*) from lies_in
    where child is null or not exists (select 1 from known where id = child) group by child limit 20;
select 'parent twice', child, parent, count(*) from lies_in
    where child is not null and parent is not null group by child, parent having count(*) > 1 limit 20;
select 'no parent', category, count(*), min(id) from known
    where category is not null and id not in (select child from lies_in where child is not null and parent is not null)
    group by category;
select 'no edge', low.category || ' ' || coalesce(high.category, 'All'), count(*), min(low.id)
    from lies_in
    join known low on low.id = lies_in.child
    left join known high on high.id = lies_in.parent
    where low.category is not null and (high.category is not null or lies_in.parent = 'all')
        and not exists (select 1 from edge where edge.child = low.category and edge.parent = coalesce(high.category, 'All'))
    group by 2;
select 'fact of no member', quote(member), count(*) from fact
    where member is null or not exists (select 1 from known where id = member) group by member limit 20;
select 'fact above the lowest level', category, count(*), min(id) from fact join known on known.id = fact.member
    where category in (select parent from edge) group by category;
select 'no whole number', quote(value), count(*), quote(min(member)) from fact
    where typeof(value) <> 'integer' group by value limit 20;
select 'names alike', category, count(*), quote(min(name)) || ' ' || quote(max(name)) from member
    group by category, lower(trim(name)) having min(name) <> max(name) limit 20;
