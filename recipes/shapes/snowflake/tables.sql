-- What the company has: a table a level, and a city has a state, a province, or neither. The keys are numbers.
create table country (id integer primary key, name text not null);
create table region (id integer primary key, name text not null, country_id integer not null references country);
create table state (
    id integer primary key, name text not null,
    region_id integer references region, country_id integer references country
);
create table province (id integer primary key, name text not null, region_id integer not null references region);
create table city (
    id integer primary key, name text not null,
    state_id integer references state, province_id integer references province, country_id integer references country
);
create table store (id integer primary key, name text not null, city_id integer not null references city);
create table sale (id integer primary key, store_id integer not null references store, cents integer not null);

insert into country values (1, 'USA'), (2, 'Canada'), (3, 'México');
insert into region values (1, 'East', 2), (2, 'South', 3);
insert into state values (1, 'Texas', null, 1), (2, 'Illinois', null, 1), (3, 'Massachusetts', null, 1), (4, 'Yucatán', 2, null);
insert into province values (1, 'Ontario', 1), (2, 'Québec', 1);
insert into city values
    (1, 'Washington', null, null, 1),
    (2, 'Austin', 1, null, null),
    (3, 'Springfield', 2, null, null),
    (4, 'Springfield', 3, null, null),
    (5, 'Toronto', null, 1, null),
    (6, 'L''Ancienne-Lorette', null, 2, null),
    (7, 'Mérida', 4, null, null);
insert into store values
    (1, 'Joe''s "Deli", Washington', 1),
    (2, 'Main St; corner 5th', 2),
    (3, 'Two
lines', 3),
    (4, '<b>&amp;', 4),
    (5, '-5 % shop', 5),
    (6, 'L''Épicerie', 6),
    (7, 'Panadería "La Ñ"', 7),
    (8, 'Opens soon', 5);
insert into sale values
    (1, 1, 1000), (2, 1, -250), (3, 2, 500), (4, 3, 700), (5, 3, 300), (6, 4, 125),
    (7, 5, 900), (8, 5, -900), (9, 6, 450), (10, 7, 800), (11, 7, 75);
