-- Loads what the program printed: Store.csv is a view, and in the others a line with the plan precedes the view.
-- If it is run again, it replaces what it loaded before, and readers see the old totals or the new ones. It stops, and the
-- old ones stay, if a file isn't whole: a refusal, nothing at all, or cut off within a line.
.bail on
begin;
create temp table whole (file text, is_whole integer, constraint "a file is no whole answer" check (is_whole));
insert into whole
    select file, text glob above || 'member,count,sum,least,greatest' || char(10) || '*' and substr(text, -1) = char(10)
    from (
        select file, above, coalesce(cast(readfile(file) as text), '') as text
        from (
            select 'Store.csv' as file, '' as above
            union all select 'Region.csv', 'plan*' || char(10)
            union all select 'Country.csv', 'plan*' || char(10)
        )
    );
create table if not exists store_total (member text primary key, count integer, sum integer, least integer, greatest integer);
create table if not exists region_total (member text primary key, count integer, sum integer, least integer, greatest integer);
create table if not exists country_total (member text primary key, count integer, sum integer, least integer, greatest integer);
delete from store_total;
delete from region_total;
delete from country_total;
.mode csv
.import --skip 1 Store.csv store_total
.import --skip 2 Region.csv region_total
.import --skip 2 Country.csv country_total
drop table whole;
commit;
