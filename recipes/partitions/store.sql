-- Prints a store of the views of these categories, which are rows of a table: first a record that begins each view, and
-- then the rows. A view is begun also where it has no rows.
copy (
    select category, member, count, sum, least, greatest
    from (
        select 0 as part, category, null as member, null::numeric as count, null::numeric as sum, null::numeric as least,
            null::numeric as greatest
        from unnest(string_to_array(:'categories', ' ')) as category
        union all
        select 1, category, member, count, sum, least, greatest
        from :"rows"
        where category = any (string_to_array(:'categories', ' '))
    ) as record
    order by part, category, member
) to stdout with (format csv, header);
