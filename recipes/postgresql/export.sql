-- Writes instance.csv and facts.csv from the views member, lies_in and fact, both of one moment. Parents are joined
-- by semicolons. It stops if a row of lies_in would be lost: its child is no member, or its parent is null.
begin isolation level repeatable read read only;
do $$ declare lost record; begin
    select child::text as child, parent::text as parent into lost from lies_in
    where parent is null or not exists (select 1 from member where member.id::text = lies_in.child::text) limit 1;
    if found then
        raise exception 'lies_in has a row of no member, or with no parent: child %, parent %',
            quote_nullable(lost.child), quote_nullable(lost.parent);
    end if;
end $$;
copy (
    select id, category, name, coalesce(up.parents, '') as parents
    from member
    left join (select child::text as child, string_agg(parent::text, ';') as parents from lies_in group by 1) as up
        on up.child = member.id::text
    order by id::text collate "C"
) to stdout with (format csv, header) \g instance.csv
copy (
    select member, value from fact order by member::text collate "C", value
) to stdout with (format csv, header) \g facts.csv
commit;
