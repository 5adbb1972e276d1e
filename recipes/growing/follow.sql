-- Follows the tables from now on: each sale that is inserted or deleted is a change, and so is a place that is moved, renamed
-- or deleted. A sale that is corrected is deleted and inserted. Numbers of changes only grow. `insert or replace` takes a
-- row away and fires no trigger for it, unless the session said `pragma recursive_triggers = on`; so if a row is
-- there already, the store is rebuilt.
create table change (id integer primary key autoincrement, kind text not null, member text, value integer);

create trigger sale_came after insert on sale begin
    insert into change (kind, member, value) values ('came', new.place_id, new.cents);
end;
create trigger sale_went after delete on sale begin
    insert into change (kind, member, value) values ('went', old.place_id, old.cents);
end;
create trigger sale_corrected after update of place_id, cents on sale begin
    insert into change (kind, member, value)
    values ('went', old.place_id, old.cents), ('came', new.place_id, new.cents);
end;
create trigger sale_replaced before insert on sale when exists (select 1 from sale where id = new.id) begin
    insert into change (kind, member) values ('anew', new.place_id);
end;
create trigger place_replaced before insert on place when exists (select 1 from place where id = new.id) begin
    insert into change (kind, member) values ('anew', new.id);
end;
create trigger place_changed after update on place begin
    insert into change (kind, member) values ('anew', old.id);
end;
create trigger place_went after delete on place begin
    insert into change (kind, member) values ('anew', old.id);
end;
