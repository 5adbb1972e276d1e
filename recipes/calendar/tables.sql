-- What a warehouse has: a row for each day, with its month, its quarter, its year, and the week and the year of ISO 8601.
create table day (
    date text primary key, week text not null, month text not null, quarter text not null, year text not null,
    iso_year text not null
);
-- The week of a day is that of its Thursday.
with recursive
    dates (date) as (select '2024-01-01' union all select date(date, '+1 day') from dates where date < '2026-12-31'),
    thursdays as (select date, date(date, '-3 days', 'weekday 4') as thursday from dates)
insert into day
    select date, strftime('%Y', thursday) || printf('-W%02d', (strftime('%j', thursday) + 6) / 7), strftime('%Y-%m', date),
        strftime('%Y', date) || '-Q' || ((strftime('%m', date) + 2) / 3), strftime('%Y', date), strftime('%Y', thursday)
    from thursdays;
create table sale (date text not null references day, cents integer not null);
insert into sale select date, 100 + strftime('%j', date) from day;
