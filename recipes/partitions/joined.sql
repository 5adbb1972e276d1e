-- The sales of both servers as one table: a partition is here, and one is on the second server.
create extension if not exists postgres_fdw schema public;
create server olap_recipe_second foreign data wrapper postgres_fdw
    options (host :'host', port :'port', dbname :'database', fetch_size '10000', async_capable 'true');
create user mapping for current_user server olap_recipe_second options (user :'user');

create table sale_all (year integer, place_id text, cents integer) partition by list (year);
alter table sale_all attach partition sale for values in (2025);
create foreign table sale_second partition of sale_all for values in (2026)
    server olap_recipe_second options (schema_name 'olap_recipe', table_name 'sale');
