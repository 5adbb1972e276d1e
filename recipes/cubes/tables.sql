-- A star: a table of facts, and a wide table for each dimension. A store has the columns of all levels, and of some there is
-- nothing: a city lies in a state, in a province, or directly in a country, and states of México alone have regions.
create table store_dim (
    store_key integer primary key, store_name text not null, city_key integer not null, city_name text not null,
    state_key text, state_name text, province_key text, province_name text, region_key text, region_name text,
    country_key text not null, country_name text not null
);
insert into store_dim
select
    number, 'Store ' || number, city_key, city_name, state_key, state_name, province_key, province_name, region_key, region_name,
    country_key, country_name
from generate_series(1, 60) as number
join (
    values
        (0, 'Washington', null, null, null, null, null, null, 'US', 'USA'),
        (1, 'Austin', 'TX', 'Texas', null, null, null, null, 'US', 'USA'),
        (2, 'Springfield', 'IL', 'Illinois', null, null, null, null, 'US', 'USA'),
        (3, 'Springfield', 'MA', 'Massachusetts', null, null, null, null, 'US', 'USA'),
        (4, 'Toronto', null, null, 'ON', 'Ontario', 'E', 'East', 'CA', 'Canada'),
        (5, 'Québec', null, null, 'QC', 'Québec', 'E', 'East', 'CA', 'Canada'),
        (6, 'Mérida', 'YU', 'Yucatán', null, null, 'S', 'South', 'MX', 'México')
) as city (
    city_key, city_name, state_key, state_name, province_key, province_name, region_key, region_name, country_key, country_name
) on city_key = number % 7;

create table article_dim (
    article_key integer primary key, article_name text not null, is_card boolean not null, group_key integer, group_name text,
    department_key integer not null, department_name text not null
);
insert into article_dim
select
    number, case when number % 9 = 0 then 'Card of ' || number else 'Article ' || number end, number % 9 = 0,
    case when number % 9 > 0 then number % 6 end, case when number % 9 > 0 then 'Group ' || number % 6 end,
    case when number % 9 > 0 then number % 6 / 2 else number % 2 end,
    case when number % 9 > 0 then 'Department ' || number % 6 / 2 else 'Department ' || number % 2 end
from generate_series(1, 45) as number;

create table sale_fact (store_key integer not null, article_key integer not null, cents integer not null);
insert into sale_fact
select 1 + number * 7919 % 60, 1 + number * 104729 % 45, number * 1299709 % 20000 - 2000
from generate_series(1::bigint, :rows) as number;
