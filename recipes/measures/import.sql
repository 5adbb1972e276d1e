-- Loads the answers, one for each measure. Each has a line with the plan above it.
-- If it is run again, it replaces what it loaded before, and readers see the old totals or the new ones.
-- It stops, and the old rows stay, if a file isn't whole: a refusal, nothing at all, or cut off within a line.
.bail on
begin;
create temp table whole (file text, is_whole integer, constraint "a file is no whole answer" check (is_whole));
insert into whole
    select file, text glob 'plan*' || char(10) || 'member,count,sum,least,greatest' || char(10) || '*'
            and substr(text, -1) = char(10)
    from (
        select file, coalesce(cast(readfile(file) as text), '') as text
        from (
            select 'cents_answer.csv' as file union all select 'pieces_answer.csv' union all select 'grams_answer.csv'
        )
    );
create table if not exists cents_total (member text primary key, count integer, sum integer, least integer, greatest integer);
create table if not exists pieces_total (member text primary key, count integer, sum integer, least integer, greatest integer);
create table if not exists grams_total (member text primary key, count integer, sum integer, least integer, greatest integer);
delete from cents_total;
delete from pieces_total;
delete from grams_total;
.mode csv
.import --skip 2 cents_answer.csv cents_total
.import --skip 2 pieces_answer.csv pieces_total
.import --skip 2 grams_answer.csv grams_total
drop table whole;
commit;
