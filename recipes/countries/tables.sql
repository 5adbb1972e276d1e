-- What a company has: the countries and their subdivisions as ISO 3166 lists them, read from Debian's package iso-codes, a store in
-- each lowest subdivision, and one in each country without any. Some parents are written with the country's code, and some without.
create table country as
    select value ->> 'alpha_2' as code, value ->> 'name' as name
    from json_each(readfile('/usr/share/iso-codes/json/iso_3166-1.json'), '$."3166-1"');
create table subdivision as
    select value ->> 'code' as code, value ->> 'name' as name, value ->> 'parent' as parent
    from json_each(readfile('/usr/share/iso-codes/json/iso_3166-2.json'), '$."3166-2"');
update subdivision set parent = substr(code, 1, 3) || parent where parent is not null and instr(parent, '-') = 0;
create table parent as select distinct parent as code from subdivision where parent is not null;
create unique index by_parent on parent (code);
create table store (id integer primary key, code text, country text not null);
insert into store (code, country)
    select code, substr(code, 1, 2) from subdivision where code not in (select code from parent)
    union all select null, code from country where code not in (select substr(code, 1, 2) from subdivision);
create table sale as select id as store, 100 + id as cents from store union all select id, -(id % 7) from store;
