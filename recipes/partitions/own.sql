-- The database's own totals of all levels, from each sale. The answers are compared with them.
create table way as
with recursive up (place, ancestor) as (
    select id, id from place
    union
    select up.place, place.parent from up join place on place.id = up.ancestor where place.parent <> 'all'
)
select
    up.place,
    max(place.id) filter (where place.category = 'City') as city,
    max(place.id) filter (where place.category = 'State') as state,
    max(place.id) filter (where place.category = 'Province') as province,
    max(place.id) filter (where place.category = 'Region') as region,
    max(place.id) filter (where place.category = 'Country') as country
from up join place on place.id = up.ancestor
group by up.place;
analyze way;

create table own as
select level.category, level.member, count, sum, least, greatest
from (
    select
        city, state, province, region, country, grouping(city, state, province, region, country) as left_out,
        count(*) as count, sum(cents) as sum, min(cents) as least, max(cents) as greatest
    from sale_all left join way on way.place = place_id
    group by grouping sets ((city), (state), (province), (region), (country), ())
) as total
cross join lateral (
    values (15, 'City', city), (23, 'State', state), (27, 'Province', province), (29, 'Region', region),
        (30, 'Country', country), (31, 'All', 'all')
) as level (left_out, category, member)
where level.left_out = total.left_out and level.member is not null;
