-- What no part can see, since it stands in two of them: an id of two customers. Where the id is a key of the table, as
-- here, there is nothing to find, and it costs one pass over the key. Ids of places are in each part.
.mode list
select 'an id of ' || count(*) || ' customers: ' || coalesce(id, 'null') from customer group by id having count(*) > 1 limit 20;
