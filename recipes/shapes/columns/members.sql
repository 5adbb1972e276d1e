-- What the export wants: the members, who lies directly in whom, and the facts. The levels have no keys, so a
-- member's id is its name and the names above it, which tell two Springfields apart. (Where a name is enough, take
-- the name alone: then `check` finds the rows that put one city into two states.) All are views, so each export has
-- the rows of its day, and a member keeps its id. A text that is empty, or of spaces alone, is no level. A store
-- without a city, or a city without a country, has no parent then, and the export stops.
create view clean as
    select store_id, store, nullif(trim(city), '') as city, nullif(trim(state), '') as state,
        nullif(trim(province), '') as province, nullif(trim(region), '') as region, nullif(trim(country), '') as country
    from location;

-- A slash in a name is doubled, so no two lists of names make the same id.
create view named as
    select *,
        replace(city, '/', '//') as in_city, ' /t ' || replace(state, '/', '//') as in_state,
        ' /p ' || replace(province, '/', '//') as in_province, ' /r ' || replace(region, '/', '//') as in_region,
        ' /n ' || replace(country, '/', '//') as in_country
    from clean;

create view placed as
    select *,
        's' || store_id as s,
        in_city || coalesce(in_state, '') || coalesce(in_province, '') || coalesce(in_region, '') || in_country as c,
        ltrim(in_state) || coalesce(in_region, '') || in_country as t,
        ltrim(in_province) || coalesce(in_region, '') || in_country as p,
        ltrim(in_region) || in_country as r,
        ltrim(in_country) as n
    from named;

create view member as
    select s as id, 'Store' as category, store as name from placed
    union select c, 'City', city from placed where city is not null
    union select t, 'State', state from placed where state is not null
    union select p, 'Province', province from placed where province is not null
    union select r, 'Region', region from placed where region is not null
    union select n, 'Country', country from placed where country is not null;

-- A level lies in the next one that isn't empty.
create view lies_in as
    select s as child, c as parent from placed
    union select c, t from placed where state is not null
    union select c, p from placed where province is not null
    union select c, coalesce(r, n) from placed where city is not null and state is null and province is null
    union select t, coalesce(r, n) from placed where state is not null
    union select p, coalesce(r, n) from placed where province is not null
    union select r, n from placed where region is not null
    union select n, 'all' from placed where country is not null;

create view fact as select 's' || store_id as member, cents as value from sale;
