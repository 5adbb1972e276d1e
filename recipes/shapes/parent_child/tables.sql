-- What the company has: one table of places of all kinds, each with the place that it lies in. The keys are texts that
-- people typed, so there are some with commas, quotes, line breaks and a dash in front.
create table place (
    id text primary key, kind text not null, name text not null, parent_id text references place
);
create table sale (id integer primary key, place_id text not null references place, cents integer not null);

insert into place values
    ('US', 'Country', 'USA', null),
    ('CA', 'Country', 'Canada', null),
    ('MX', 'Country', 'México', null),
    ('East, "CA"', 'Region', 'East', 'CA'),
    ('-MX
South', 'Region', 'South', 'MX'),
    ('-TX', 'State', 'Texas', 'US'),
    ('--IL', 'State', 'Illinois', 'US'),
    ('"MA"', 'State', 'Massachusetts', 'US'),
    ('YU, MX', 'State', 'Yucatán', '-MX
South'),
    ('O''N', 'Province', 'Ontario', 'East, "CA"'),
    ('QC', 'Province', 'Québec', 'East, "CA"'),
    ('WAS', 'City', 'Washington', 'US'),
    ('AUS', 'City', 'Austin', '-TX'),
    ('SPI
IL', 'City', 'Springfield', '--IL'),
    ('SPI,MA', 'City', 'Springfield', '"MA"'),
    ('TOR', 'City', 'Toronto', 'O''N'),
    ('LAN', 'City', 'L''Ancienne-Lorette', 'QC'),
    ('MID', 'City', 'Mérida', 'YU, MX'),
    ('1', 'Store', 'Joe''s "Deli", Washington', 'WAS'),
    ('-2', 'Store', 'Main St; corner 5th', 'AUS'),
    ('\n', 'Store', 'Two
lines', 'SPI
IL'),
    ('<4>', 'Store', '<b>&amp;', 'SPI,MA'),
    ('5" & 6"', 'Store', '-5 % shop', 'TOR'),
    ('--', 'Store', 'L''Épicerie', 'LAN'),
    ('Ñ', 'Store', 'Panadería "La Ñ"', 'MID'),
    ('\.', 'Store', 'Opens soon', 'TOR');
insert into sale values
    (1, '1', 1000), (2, '1', -250), (3, '-2', 500), (4, '\n', 700), (5, '\n', 300), (6, '<4>', 125),
    (7, '5" & 6"', 900), (8, '5" & 6"', -900), (9, '--', 450), (10, 'Ñ', 800), (11, 'Ñ', 75);
