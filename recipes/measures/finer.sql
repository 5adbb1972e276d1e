-- Prints the sales whose measures aren't as the export takes them: no numbers, as the text '12,50', of which SQLite
-- would take the digits in front; nothing, where something must be; or more decimals than the unit has, which would
-- be rounded away.
select 'no amount', id, quote(paid) from sale where typeof(paid) not in ('integer', 'real')
union all select 'no number of pieces', id, quote(pieces) from sale where typeof(pieces) <> 'integer'
union all select 'no weight', id, quote(kilograms) from sale where typeof(kilograms) not in ('integer', 'real', 'null')
union all select 'finer than a cent', id, paid from sale where abs(paid * 100 - round(paid * 100)) > 1e-6
union all select 'finer than a gram', id, kilograms from sale
    where abs(kilograms * 1000 - round(kilograms * 1000)) > 1e-6;
