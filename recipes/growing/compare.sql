-- Prints the rows that only one side has: the store's, as it was loaded, and the countries' that were computed from it; and the
-- database's own, from each sale.
.bail on
create temp table kept (category text, member text, count integer, sum integer, least integer, greatest integer);
create temp table taken (member text, count integer, sum integer, least integer, greatest integer);
.mode csv
.import --skip 1 store.csv kept
.import --skip 2 Country.csv taken
.mode list
create temp view program as
    select * from kept where member <> '' union all select 'Country', * from taken;
create temp view own as
    select place.kind as category, place.id as member, count(*), sum(cents), min(cents), max(cents)
    from sale
    left join above on above.place = sale.place_id
    left join place on place.id = above.ancestor
    where place.id is null or place.kind in ('City', 'State', 'Province', 'Country')
    group by place.kind, place.id;
select 'only the program has', * from (select * from program except select * from own)
union all select 'only the database has', * from (select * from own except select * from program);
