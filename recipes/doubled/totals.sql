-- Totals as they are often kept: a table by city, one by state, one by province.
drop table if exists by_city;
drop table if exists by_state;
drop table if exists by_province;
create table by_city as
    select city.id, city.state_id, city.province_id, city.country_id, sum(cents) as cents
    from sale join store_city using (store_id) join city on city.id = city_id group by city.id;
create table by_state as
    select state.id, state.country_id, sum(cents) as cents
    from by_city join state on state.id = state_id group by state.id;
create table by_province as
    select province.id, province.country_id, sum(cents) as cents
    from by_city join province on province.id = province_id group by province.id;
