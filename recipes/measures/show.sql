-- Prints the report.
.headers on
.mode csv
.separator , "\n"
select * from total order by department;
