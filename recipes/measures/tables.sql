-- What the company has: sales with what was paid, how many pieces, and a weight in kilograms, which is not always known.
create table department (id integer primary key, name text not null);
create table "group" (id integer primary key, name text not null, department_id integer not null references department);
create table brand (id integer primary key, name text not null);
create table product (
    id integer primary key, name text not null, group_id integer not null references "group", brand_id integer references brand
);
create table sale (
    id integer primary key, product_id integer not null references product,
    paid numeric not null, pieces integer not null, kilograms real
);

insert into department values (1, 'Bakery'), (2, 'Fruit, "fresh"'), (3, 'Gifts');
insert into "group" values (1, 'Bread', 1), (2, 'Cakes', 1), (3, 'Apples', 2), (4, 'Pears', 2), (5, 'Cards', 3);
insert into brand values (1, 'Mill & Son');
insert into product values
    (1, 'Rye loaf', 1, 1), (2, 'Rolls', 1, null), (3, 'Apple cake', 2, 1), (4, 'Gala', 3, null), (5, 'Conference', 4, null), (6, 'Birthday', 5, null);
insert into sale values
    (1, 1, 3.15, 1, 1.0), (2, 1, 6.30, 2, 2.0), (3, 2, 2.40, 8, null), (4, 3, 18.90, 1, 1.25), (5, 3, 37.80, 2, 2.5),
    (6, 4, 4.55, 13, 1.82), (7, 4, 0.35, 1, 0.139), (8, 4, -0.35, -1, -0.139), (9, 5, 1.29, 3, null), (10, 6, 2.5, 1, null);
