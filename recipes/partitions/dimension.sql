-- The dimension, small enough for one server: parents are columns, of which a place has one.
create table place (
    id text primary key, category text not null, name text not null, parent text not null
);
insert into place values
    ('USA', 'Country', 'USA', 'all'), ('CAN', 'Country', 'Canada', 'all'),
    ('east', 'Region', 'East', 'CAN'), ('west', 'Region', 'West', 'CAN'),
    ('c0', 'City', 'Washington', 'USA'), ('w1', 'Website', 'shop.us', 'USA'), ('w2', 'Website', 'shop.ca', 'CAN');
insert into place select 't' || i, 'State', 'State ' || i, 'USA' from generate_series(1, 40) as i;
insert into place
select 'p' || i, 'Province', 'Province ' || i, case i % 2 when 0 then 'east' else 'west' end from generate_series(1, 10) as i;
insert into place
select 'c' || i, 'City', 'City ' || i, case i % 5 when 0 then 'p' || 1 + i / 5 % 10 else 't' || 1 + i % 40 end
from generate_series(1, :cities) as i;
insert into place select 's' || i, 'Store', 'Store ' || i, 'c' || i % (:cities + 1) from generate_series(1, :stores) as i;
