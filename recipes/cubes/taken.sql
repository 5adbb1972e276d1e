-- The totals by country and department, computed from two views that were loaded: that of cities and groups, and that of cities and
-- cards. `cube` says that this is right, whatever is sold where.
create view taken as
    select 'Country' as category1, 'Department' as category2, above_city.parent as m1, above_article.parent as m2,
        sum(count) as count, sum(sum) as sum, min(least) as least, max(greatest) as greatest
    from answer
    join (select distinct 'c' || city_key as id, 'n' || country_key as parent from store_dim) as above_city on above_city.id = m1
    join (
        select distinct 'g' || group_key as id, 'd' || department_key as parent from article_dim where not is_card
        union select 'a' || article_key, 'd' || department_key from article_dim where is_card
    ) as above_article on above_article.id = m2
    where category1 = 'City' and category2 in ('Group', 'Card')
    group by above_city.parent, above_article.parent;
