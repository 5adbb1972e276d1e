-- Loads the answer, and prints the rows in which it differs from the totals by joins from the sales.
.bail on
create table answer (member text primary key, count integer, sum integer, least integer, greatest integer);
.mode csv
.import --skip 2 Country.csv answer
.mode list
create view own as
    select 'n' || country as member, count(*), sum(cents), min(cents), max(cents) from sale left join store on id = store group by country;
select 'only the program has', * from (select * from answer except select * from own)
union all select 'only the database has', * from (select * from own except select * from answer);
