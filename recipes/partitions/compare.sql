-- Prints the rows that only one side has: the answers that were loaded, and the database's own totals.
with
only_answer as (select * from answer where category <> 'Website' except select * from own),
only_own as (select * from own except select * from answer)
select 'only the program has' as who, only_answer.* from only_answer
union all
select 'only the database has', only_own.* from only_own;
