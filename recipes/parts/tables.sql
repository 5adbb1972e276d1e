-- The upper places, few of them, and the customers, each of whom lives in a city. .parameter sets how many there are.
create table place (id text primary key, category text not null, name text not null, parent text not null);
create table customer (id text primary key, city text not null);
insert into place values
    ('USA', 'Country', 'USA', 'all'), ('CAN', 'Country', 'Canada', 'all'), ('was', 'City', 'Washington', 'USA');
insert into place select 't' || value, 'State', 'State ' || value, 'USA' from generate_series(1, 40);
insert into place select 'p' || value, 'Province', 'Province ' || value, 'CAN' from generate_series(1, 10);
insert into place
select 'y' || value, 'City', 'City ' || value,
    case value % 5 when 0 then 'p' || (1 + value / 5 % 10) else 't' || (1 + value % 40) end from generate_series(1, 400);
insert into customer
select 'c' || value, case value % 97 when 0 then 'was' else 'y' || (1 + value % 400) end from generate_series(1, :customers);
