-- The members, who lies directly in whom, and a view of facts for each measure, in its smallest unit: cents, pieces, grams.
-- A sale whose weight isn't known is no fact of the weights.
create view member as
    select 'p' || id as id, 'Product' as category, name from product
    union all select 'b' || id, 'Brand', name from brand
    union all select 'g' || id, 'Group', name from "group"
    union all select 'd' || id, 'Department', name from department;
create view lies_in as
    select 'p' || id as child, 'g' || group_id as parent from product
    union all select 'p' || id, 'b' || brand_id from product where brand_id is not null
    union all select 'b' || id, 'all' from brand
    union all select 'g' || id, 'd' || department_id from "group"
    union all select 'd' || id, 'all' from department;
create view cents as select 'p' || product_id as member, cast(round(paid * 100) as integer) as value from sale;
create view pieces as select 'p' || product_id as member, pieces as value from sale;
create view grams as
    select 'p' || product_id as member, cast(round(kilograms * 1000) as integer) as value from sale where kilograms is not null;
