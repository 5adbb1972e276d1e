-- The members, who lies directly in whom, and the facts. Weeks lie in ISO years, which are a level of their own: 2024 is a year
-- and an ISO year, so its ids differ.
create view member as
    select date as id, 'Day' as category, date as name from day
    union select week, 'Week', week from day
    union select month, 'Month', month from day
    union select quarter, 'Quarter', quarter from day
    union select 'y' || year, 'Year', year from day
    union select 'i' || iso_year, 'IsoYear', iso_year from day;
create view lies_in as
    select date as child, week as parent from day
    union select date, month from day
    union select month, quarter from day
    union select quarter, 'y' || year from day
    union select 'y' || year, 'all' from day
    union select week, 'i' || iso_year from day
    union select 'i' || iso_year, 'all' from day;
create view fact as select date as member, cents as value from sale;
