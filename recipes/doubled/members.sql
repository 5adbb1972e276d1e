-- The members, who lies directly in whom, and the facts, with the rows of store_city as they are.
create view member as
    select 's' || id as id, 'Store' as category, name from store
    union all select 'c' || id, 'City', name from city
    union all select 't' || id, 'State', name from state
    union all select 'p' || id, 'Province', name from province
    union all select 'n' || id, 'Country', name from country;

create view lies_in as
    select 's' || store_id as child, 'c' || city_id as parent from store_city
    union all select 'c' || id, 't' || state_id from city where state_id is not null
    union all select 'c' || id, 'p' || province_id from city where province_id is not null
    union all select 'c' || id, 'n' || country_id from city where country_id is not null
    union all select 't' || id, 'n' || country_id from state
    union all select 'p' || id, 'n' || country_id from province
    union all select 'n' || id, 'all' from country;

create view fact as select 's' || store_id as member, cents as value from sale;
