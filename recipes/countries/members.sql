-- The members by one kind of division. Each table has a letter before its codes: VC is a part of Spain, and Saint Vincent.
create view member as
    select 'n' || code as id, 'Country' as category, name from country
    union all select 'd' || code, iif(code in (select code from parent), 'Region', 'Division'), name from subdivision
    union all select 's' || id, 'Store', 's' || id from store;
create view lies_in as
    select 'n' || code as child, 'all' as parent from country
    union all select 'd' || code, coalesce('d' || parent, 'n' || substr(code, 1, 2)) from subdivision
    union all select 's' || id, coalesce('d' || code, 'n' || country) from store;
create view fact as select 's' || store as member, cents as value from sale;
