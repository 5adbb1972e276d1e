-- Writes the instances and the facts, all of one moment. Each level of a wide table is a category, and what the next
-- columns with a key say are its parents; keys of each level get a letter of their own. If a city has a state and a
-- province, in one row of the wide table or in two, it has two parents here, and the program refuses them. A level
-- without any parent has a null, and that stops it.
begin isolation level repeatable read;
create view store_level as
    select 's' || store_key as id, 'Store' as category, store_name as name, 'c' || city_key as parent from store_dim
    union all
    select 'c' || city_key, 'City', city_name, up.parent
    from store_dim
    cross join lateral (
        values ('t' || state_key), ('p' || province_key),
            (case when state_key is null and province_key is null then 'n' || country_key end)
    ) as up (parent)
    where city_key is not null and (up.parent is not null or coalesce(state_key, province_key, country_key) is null)
    union all
    select 't' || state_key, 'State', state_name, coalesce('r' || region_key, 'n' || country_key)
    from store_dim where state_key is not null
    union all
    select 'p' || province_key, 'Province', province_name, 'r' || region_key
    from store_dim where province_key is not null
    union all
    select 'r' || region_key, 'Region', region_name, 'n' || country_key from store_dim where region_key is not null
    union all
    select 'n' || country_key, 'Country', country_name, 'all' from store_dim where country_key is not null;
create view article_level as
    select 'a' || article_key as id, case when is_card then 'Card' else 'Item' end as category, article_name as name,
        coalesce('g' || group_key, 'd' || department_key) as parent
    from article_dim
    union all
    select 'g' || group_key, 'Group', group_name, 'd' || department_key from article_dim where group_key is not null
    union all
    select 'd' || department_key, 'Department', department_name, 'all' from article_dim where department_key is not null;
do $$ declare lost record; begin
    select * into lost from (select * from store_level union all select * from article_level) as level
    where id is null or parent is null limit 1;
    if found then
        raise exception 'a level without a key, or without a parent: % % %', lost.category, lost.id, lost.name;
    end if;
end $$;
copy (
    select id, category, name, string_agg(distinct parent, ';') as parents
    from store_level group by id, category, name order by id collate "C"
) to stdout with (format csv, header) \g stores.csv

copy (
    select id, category, name, string_agg(distinct parent, ';') as parents
    from article_level group by id, category, name order by id collate "C"
) to stdout with (format csv, header) \g articles.csv

copy (
    select 's' || store_key as m1, 'a' || article_key as m2, cents as value from sale_fact
) to stdout with (format csv, header) \g facts.csv
commit;
