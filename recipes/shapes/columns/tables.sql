-- What the company has: one row a store, with a column a level, which is empty where the store has no such level.
create table location (
    store_id integer primary key, store text not null, city text not null,
    state text, province text, region text, country text not null
);
create table sale (id integer primary key, store_id integer not null references location, cents integer not null);

insert into location values
    (1, 'Joe''s "Deli", Washington', 'Washington', null, null, null, 'USA'),
    (2, 'Main St; corner 5th', 'Austin', 'Texas', '', '', 'USA'),
    (3, 'Two
lines', 'Springfield', 'Illinois', null, null, 'USA'),
    (4, '<b>&amp;', 'Springfield', 'Massachusetts', null, null, 'USA'),
    (5, '-5 % shop', 'Toronto', null, 'Ontario', 'East', 'Canada'),
    (6, 'L''Épicerie', 'L''Ancienne-Lorette', null, 'Québec', 'East', 'Canada'),
    (7, 'Panadería "La Ñ"', 'Mérida', 'Yucatán', null, 'South', 'México'),
    (8, 'Opens soon', 'Toronto', null, 'Ontario', 'East', 'Canada');
insert into sale values
    (1, 1, 1000), (2, 1, -250), (3, 2, 500), (4, 3, 700), (5, 3, 300), (6, 4, 125),
    (7, 5, 900), (8, 5, -900), (9, 6, 450), (10, 7, 800), (11, 7, 75);
