-- What the export wants: the members, who lies directly in whom, and the facts. The kinds are the categories' names, and
-- the keys are taken as they are.
create view member as select id, kind as category, name from place;

create view lies_in as select id as child, coalesce(parent_id, 'all') as parent from place;

create view fact as select place_id as member, cents as value from sale;
