-- Prints the instance of one part: the header, all upper places, and the customers whose rows have these numbers. Every
-- customer has one number, so each is in one part.
.headers off
.mode csv
select 'id', 'category', 'name', 'parents';
select id, category, name, parent from place;
select id, 'Customer', '', city from customer where rowid > :from and rowid <= :to;
