\setup
create table item (id integer primary key, price integer);
create table log (id integer, old_price integer, new_price integer);
create function note() returns trigger language plpgsql as $$
begin
    if new.price is distinct from old.price then
        insert into log values (new.id, old.price, new.price);
    elsif tg_op = 'UPDATE' then
        raise exception 'nothing has changed';
    end if;
    return null;
end $$;
create trigger note_price after update of price on item
    for each row when (new.price > 0) execute function note();
create constraint trigger note_later after update on item
    deferrable initially deferred for each row execute function note();
\session a
begin;
set constraints note_later immediate;
update item set price = 5;
commit;
