-- The database's own totals of the same tuples of levels, by grouping sets over the joined star: each set of the first list with
-- each of the second. Rows with no key of a level are those of facts that lack it, and are in no row of the program's.
create table own as
select place.category as category1, kind.category as category2, place.member as m1, kind.member as m2, count, sum, least, greatest
from (
    select
        city_key, state_key, province_key, region_key, country_key,
        grouping(city_key, state_key, province_key, region_key, country_key) as place_left_out,
        group_key, department_key, grouping(group_key, department_key) as kind_left_out,
        count(*) as count, sum(cents) as sum, min(cents) as least, max(cents) as greatest
    from sale_fact left join store_dim using (store_key) left join article_dim using (article_key)
    group by
        grouping sets ((city_key), (state_key), (province_key), (region_key), (country_key), ()),
        grouping sets ((group_key), (department_key), ())
) as total
cross join lateral (
    values (15, 'City', 'c' || city_key), (23, 'State', 't' || state_key), (27, 'Province', 'p' || province_key),
        (29, 'Region', 'r' || region_key), (30, 'Country', 'n' || country_key), (31, 'All', 'all')
) as place (left_out, category, member)
cross join lateral (
    values (1, 'Group', 'g' || group_key), (2, 'Department', 'd' || department_key), (3, 'All', 'all')
) as kind (left_out, category, member)
where place.left_out = place_left_out and kind.left_out = kind_left_out and place.member is not null and kind.member is not null;
