-- Loads what the program printed: Store.csv is a view, and in the others a line with the plan precedes the view.
-- A sum may be larger than a bigint. If it is run again, it replaces what it loaded before, and readers see the old totals
-- or the new ones. It stops, and the old ones stay, if a file isn't whole: a refusal, nothing at all, or cut off
-- within a line.
begin;
\set store `head -n 1 Store.csv; tail -c 1 Store.csv | od -An -tx1`
\set region `head -n 2 Region.csv; tail -c 1 Region.csv | od -An -tx1`
\set country `head -n 2 Country.csv; tail -c 1 Country.csv | od -An -tx1`
create temp table whole (file text, is_whole boolean, constraint "a file is no whole answer" check (is_whole));
insert into whole values
    ('Store.csv', :'store' = E'member,count,sum,least,greatest\n 0a'),
    ('Region.csv', :'region' like E'plan%\nmember,count,sum,least,greatest\n 0a'),
    ('Country.csv', :'country' like E'plan%\nmember,count,sum,least,greatest\n 0a');
create table if not exists store_total (member text primary key, count bigint, sum numeric, least bigint, greatest bigint);
create table if not exists region_total (member text primary key, count bigint, sum numeric, least bigint, greatest bigint);
create table if not exists country_total (member text primary key, count bigint, sum numeric, least bigint, greatest bigint);
delete from store_total;
delete from region_total;
delete from country_total;
\copy store_total from 'Store.csv' with (format csv, header)
\copy region_total from program 'tail -n +2 Region.csv' with (format csv, header)
\copy country_total from program 'tail -n +2 Country.csv' with (format csv, header)
drop table whole;
commit;
