-- The views of the lowest levels. Each server groups its own sales, so that a row per member comes over the network and
-- not a row per sale, and both work at once; then the parts are added, however the sales lie on servers: counts and
-- sums are summed, and the least is the least of the leasts. It stops if a total would be lost or wrong: foreign
-- keys don't reach over servers, so a sale may be of no lowest member, which are those of :categories; and one of no
-- amount would be counted.
create table part as
    select place_id as member, count(*), count(cents) as known, sum(cents), min(cents) as least, max(cents) as greatest
    from sale group by place_id
    union all
    select place_id, count(*), count(cents), sum(cents), min(cents), max(cents) from sale_second group by place_id;
create table lowest_category as select unnest(string_to_array(:'categories', ' ')) as category;
do $$ declare lost record; begin
    select part.member, part.count, place.category into lost from part left join place on place.id = member
    where place.id is null or place.category not in (select category from lowest_category) limit 1;
    if found then
        raise exception '% sales of no lowest member: %, category %',
            lost.count, quote_nullable(lost.member), quote_nullable(lost.category);
    end if;
    select member, count - known as number into lost from part where known < count limit 1;
    if found then raise exception '% sales of no amount: %', lost.number, quote_nullable(lost.member); end if;
end $$;
create table lowest as
    select category, member, sum(count) as count, sum(sum) as sum, min(least) as least, max(greatest) as greatest
    from part join place on place.id = member
    group by category, member;
