-- The report: names beside ids, units as they were, and averages, each the sum by the count, or by another sum, of one department.
create view if not exists total as
    select member.name as department,
        cents_total.count as sales,
        round(cents_total.sum / 100.0, 2) as revenue,
        round(cents_total.sum / 100.0 / cents_total.count, 2) as per_sale,
        pieces_total.sum as pieces,
        round(cents_total.sum / 100.0 / pieces_total.sum, 2) as per_piece,
        grams_total.count as weighed,
        round(grams_total.sum / 1000.0, 3) as kilograms,
        round(grams_total.sum / 1000.0 / grams_total.count, 3) as per_weighed
    from cents_total
    join member on member.id = cents_total.member
    left join pieces_total on pieces_total.member = member.id
    left join grams_total on grams_total.member = member.id;
