-- Stores moved: in January store 2 went from Austin to Washington, and its old row in store_city was closed. Store 7 stands
-- on the border of two cities, and somebody gave it both.
create table country (id integer primary key, name text not null);
create table state (id integer primary key, name text not null, country_id integer not null references country);
create table province (id integer primary key, name text not null, country_id integer not null references country);
create table city (
    id integer primary key, name text not null,
    state_id integer references state, province_id integer references province, country_id integer references country
);
create table store (id integer primary key, name text not null);
create table store_city (
    store_id integer not null references store, city_id integer not null references city, until text
);
create table sale (id integer primary key, store_id integer not null references store, cents integer not null);

insert into country values (1, 'USA'), (2, 'Canada');
insert into state values (1, 'Texas', 1);
insert into province values (1, 'Ontario', 2), (2, 'Québec', 2);
insert into city values
    (1, 'Washington', null, null, 1), (2, 'Austin', 1, null, null),
    (3, 'Ottawa', null, 1, null), (4, 'Gatineau', null, 2, null);
insert into store values (1, 'K Street'), (2, 'Moved'), (3, 'Sixth Street'), (7, 'Bridge');
insert into store_city values
    (1, 1, null), (2, 2, '2026-01-31'), (2, 1, null), (3, 2, null), (7, 3, null), (7, 4, null);
insert into sale values (1, 1, 1000), (2, 2, 300), (3, 3, 500), (4, 7, 70);
