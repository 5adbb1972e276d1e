-- What the export wants: the members, who lies directly in whom, and the facts. Each table's keys get a letter of their
-- own, for an id is unique over all categories. A city with a state *and* a province has two rows in lies_in, and isn't
-- made into a choice here: whether that is legal is for the schema to say.
create view member as
    select 's' || id as id, 'Store' as category, name from store
    union all select 'c' || id, 'City', name from city
    union all select 't' || id, 'State', name from state
    union all select 'p' || id, 'Province', name from province
    union all select 'r' || id, 'Region', name from region
    union all select 'n' || id, 'Country', name from country;

create view lies_in as
    select 's' || id as child, 'c' || city_id as parent from store
    union all select 'c' || id, 't' || state_id from city where state_id is not null
    union all select 'c' || id, 'p' || province_id from city where province_id is not null
    union all select 'c' || id, 'n' || country_id from city where country_id is not null
    union all select 't' || id, 'r' || region_id from state where region_id is not null
    union all select 't' || id, 'n' || country_id from state where country_id is not null
    union all select 'p' || id, 'r' || region_id from province
    union all select 'r' || id, 'n' || country_id from region
    union all select 'n' || id, 'all' from country;

create view fact as select 's' || store_id as member, cents as value from sale;
