-- A server's sales: those of the years that it keeps, made up here. One sale of eight is made on a website.
create table sale (year integer not null, place_id text not null, cents integer not null);
insert into sale
select
    :year,
    case i % 8 when 0 then 'w' || 1 + i / 8 % 2 else 's' || 1 + i * 7919 % :stores end,
    (i * 104729 + :year) % 20000 - 2000
from generate_series(1::bigint, :rows / 2) as i;
analyze sale;
