-- The same members, with divisions and stores by their kind: divisions that lie in a region and plain ones, stores and outlets, which
-- stand in countries without divisions.
create view kind as
    select 'd' || code as id, iif(parent is null, 'PlainDivision', 'RegionalDivision') as category from subdivision
        where code not in (select code from parent)
    union all select 's' || id, iif(code is null, 'Outlet', 'Store') from store;
create table by_kind as
    select member.id, coalesce(kind.category, member.category) as category, name from member left join kind using (id);
drop view member;
create view member as select id, category, name from by_kind;
