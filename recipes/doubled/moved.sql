-- Each store lies only where it lies now.
delete from store_city where until is not null;
