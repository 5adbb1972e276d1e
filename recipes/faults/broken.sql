-- Puts a fault of each kind into the views over the tables of shapes/parent_child, and a null into each of their columns.
drop view member;
drop view lies_in;
drop view fact;
create view member as
    select id, kind as category, name from place
    union all select '1', 'Store', 'twice'
    union all select 'k', 'Kiosk', 'a kind that is no category'
    union all select 'a;b', 'Store', 'a semicolon'
    union all select 'a2', 'City', ' austin'
    union all select null, 'Store', 'no id'
    union all select 'u', null, 'no category'
    union all select 'x', 'Store', null;
create view lies_in as
    select id as child, coalesce(parent_id, 'all') as parent from place
    union all select 'k', 'nowhere'
    union all select '-2', 'US'
    union all select 'gone', 'WAS'
    union all select 'a2', '-TX'
    union all select 'a2', '-TX'
    union all select 'x', null
    union all select null, 'WAS';
create view fact as
    select place_id as member, cents as value from sale
    union all select 'WAS', 5
    union all select '-2', 1.5
    union all select '-2', null
    union all select null, 3
    union all select 'gone', 7;
