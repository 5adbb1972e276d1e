-- Loads the answers, and prints the rows in which they differ from the totals by joins from the sales.
.bail on
create table answer (member text primary key, count integer, sum integer, least integer, greatest integer);
.mode csv
.import --skip 2 Year.csv answer
.import --skip 2 IsoYear.csv answer
.mode list
create view own as
    select 'y' || year as member, count(*), sum(cents), min(cents), max(cents) from sale left join day using (date) group by year
    union all select 'i' || iso_year, count(*), sum(cents), min(cents), max(cents) from sale left join day using (date) group by iso_year;
select 'only the program has', * from (select * from answer except select * from own)
union all select 'only the database has', * from (select * from own except select * from answer);
