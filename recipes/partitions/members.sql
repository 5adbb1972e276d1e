-- Writes instance.csv. Here each place has one parent; where some have several, join them as ../postgresql/export.sql does.
copy (
    select id, category, name, parent as parents from place order by id collate "C"
) to stdout with (format csv, header) \g instance.csv
