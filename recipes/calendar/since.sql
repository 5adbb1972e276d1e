-- The same, except that weeks have been kept since 2025.
drop view member;
drop view lies_in;
create view member as
    select date as id, 'Day' as category, date as name from day
    union select week, 'Week', week from day where year >= '2025'
    union select month, 'Month', month from day
    union select quarter, 'Quarter', quarter from day
    union select 'y' || year, 'Year', year from day
    union select 'i' || iso_year, 'IsoYear', iso_year from day where year >= '2025';
create view lies_in as
    select date as child, week as parent from day where year >= '2025'
    union select date, month from day
    union select month, quarter from day
    union select quarter, 'y' || year from day
    union select 'y' || year, 'all' from day
    union select week, 'i' || iso_year from day where year >= '2025'
    union select 'i' || iso_year, 'all' from day where year >= '2025';
