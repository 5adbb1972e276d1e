-- The average sale of a department as the average of its groups' averages, which is wrong: each group counts alike.
.headers on
.mode csv
.separator , "\n"
select department.name as department, round(avg(average), 2) as per_sale
from (select group_id, avg(paid) as average from sale join product on product.id = product_id group by group_id)
join "group" on "group".id = group_id
join department on department.id = department_id
group by department.id order by department.name;
