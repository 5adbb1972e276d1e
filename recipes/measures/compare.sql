-- Prints the rows that only one side has: the report, and the same by SQLite alone, from each sale.
create temp view own as
    select department.name as department,
        count(*),
        round(sum(paid), 2),
        round(avg(paid), 2),
        sum(pieces),
        round(sum(paid) / sum(pieces), 2),
        nullif(count(kilograms), 0),
        round(sum(kilograms), 3),
        round(avg(kilograms), 3)
    from sale
    left join product on product.id = product_id
    left join "group" on "group".id = group_id
    left join department on department.id = department_id
    group by department.id;
select 'only the program has', * from (select * from total except select * from own)
union all select 'only the database has', * from (select * from own except select * from total);
