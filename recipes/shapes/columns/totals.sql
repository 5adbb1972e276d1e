-- The database's own totals. The answers are compared with them.
create view own_total as
    select 'Store' as category, s as member, count(*) as count, sum(cents) as sum, min(cents) as least,
        max(cents) as greatest
    from sale left join placed on placed.store_id = sale.store_id group by s
    union all
    select 'Region', r, count(*), sum(cents), min(cents), max(cents)
    from sale left join placed on placed.store_id = sale.store_id
    where placed.store_id is null or r is not null group by r
    union all
    select 'Country', n, count(*), sum(cents), min(cents), max(cents)
    from sale left join placed on placed.store_id = sale.store_id group by n;
