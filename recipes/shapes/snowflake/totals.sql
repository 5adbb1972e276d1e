-- The database's own totals, by joins that follow each way up. The answers are compared with them.
create view sale_by_place as
    select
        sale.cents, store.id as store_id, city.id as city_id, city.state_id, city.province_id, region.id as region_id,
        coalesce(city.country_id, state.country_id, region.country_id) as country_id
    from sale
    left join store on store.id = sale.store_id
    left join city on city.id = store.city_id
    left join state on state.id = city.state_id
    left join province on province.id = city.province_id
    left join region on region.id = coalesce(state.region_id, province.region_id);

create view own_total as
    select 'Store' as category, 's' || store_id as member, count(*) as count, sum(cents) as sum, min(cents) as least,
        max(cents) as greatest
    from sale_by_place group by store_id
    union all
    select 'Region', 'r' || region_id, count(*), sum(cents), min(cents), max(cents)
    from sale_by_place where region_id is not null or city_id is null group by region_id
    union all
    select 'Country', 'n' || country_id, count(*), sum(cents), min(cents), max(cents)
    from sale_by_place group by country_id;
