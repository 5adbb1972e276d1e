-- The database's own totals, by going up from each place. The answers are compared with them.
create view above as
    with recursive up (place, ancestor) as (
        select id, id from place
        union
        select up.place, place.parent_id from up join place on place.id = up.ancestor where place.parent_id is not null
    )
    select * from up;

create view own_total as
    select place.kind as category, place.id as member, count(*) as count, sum(cents) as sum, min(cents) as least,
        max(cents) as greatest
    from sale
    left join above on above.place = sale.place_id
    left join place on place.id = above.ancestor
    where place.id is null or place.kind in ('Store', 'Region', 'Country')
    group by place.kind, place.id;
