-- Prints the rows that only one side has: the program's totals as they were loaded, and the database's own.
with loaded as (
    select 'Store' as category, member, count, sum, least, greatest from store_total
    union all select 'Region', member, count, sum, least, greatest from region_total
    union all select 'Country', member, count, sum, least, greatest from country_total
),
own as (select category, member, count, sum, least, greatest from own_total),
only_loaded as (select * from loaded except select * from own),
only_own as (select * from own except select * from loaded)
select 'only the program has' as who, only_loaded.* from only_loaded
union all select 'only the database has', only_own.* from only_own;
