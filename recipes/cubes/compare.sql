-- Prints the rows that only one side has: the views that were loaded, and what was computed from two of them, and the database's own.
with
program as (select * from answer where category2 <> 'Card'),
only_program as (select * from program except select * from own),
only_own as (select * from own except select * from program),
only_taken as (select * from taken except select * from own),
not_taken as (select * from own where category1 = 'Country' and category2 = 'Department' except select * from taken)
select 'only the program has' as who, only_program.* from only_program
union all
select 'only the database has', only_own.* from only_own
union all
select 'only what was taken has', only_taken.* from only_taken
union all
select 'what was taken lacks', not_taken.* from not_taken;
