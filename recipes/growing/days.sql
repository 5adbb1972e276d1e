-- What happens on four days, each behind a line that begins with its name.
-- Monday
insert into sale (place_id, cents) values ('1', 2000), ('-2', 450), ('\n', 500), ('<4>', -25);
-- Tuesday
insert into place values ('New', 'Store', 'Opened today', 'AUS');
insert into sale (place_id, cents) values ('New', 480), ('1', 9999), ('5" & 6"', 100);
delete from sale where place_id = '1' and cents = 9999;
update sale set cents = 490 where place_id = 'New';
delete from sale where place_id = '\n' and cents = 500;
-- Wednesday
insert into sale (place_id, cents) values ('Ñ', 90);
delete from sale where place_id = '--';
-- Thursday
update place set parent_id = 'TOR' where id = 'New';
