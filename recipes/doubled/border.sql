-- The store on the border belongs to Ottawa.
delete from store_city where store_id = 7 and city_id = 4;
