-- Loads the answer, and prints the rows in which it differs from the totals by joins from the sales.
.bail on
create table answer (member text primary key, count integer, sum integer, least integer, greatest integer);
.mode csv
.import --skip 2 Country.csv answer
.mode list
create view own as
    select 'n' || coalesce(city.country_id, state.country_id, province.country_id) as member,
        count(*), sum(cents), min(cents), max(cents)
    from sale
    left join store_city using (store_id)
    left join city on city.id = city_id
    left join state on state.id = city.state_id
    left join province on province.id = city.province_id
    group by 1;
select 'only the program has', * from (select * from answer except select * from own)
union all select 'only the database has', * from (select * from own except select * from answer);
