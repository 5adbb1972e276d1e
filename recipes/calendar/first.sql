-- The views of the model that everybody writes first: weeks lie in years. A week with days of two years gets both.
create view member as
    select date as id, 'Day' as category, date as name from day
    union select week, 'Week', week from day
    union select month, 'Month', month from day
    union select quarter, 'Quarter', quarter from day
    union select 'y' || year, 'Year', year from day;
create view lies_in as
    select date as child, week as parent from day
    union select date, month from day
    union select month, quarter from day
    union select quarter, 'y' || year from day
    union select week, 'y' || year from day
    union select 'y' || year, 'all' from day;
create view fact as select date as member, cents as value from sale;
