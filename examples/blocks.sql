\setup
create table account (id integer, part integer, amount bigint default 0, primary key (id, part));
create table payment (
    no integer primary key,
    account integer,
    part integer default 1,
    foreign key (account, part) references account on delete set default (part) initially deferred
);
create table log (no integer, why text);
create function keep() returns trigger language plpgsql as $$
begin
    begin
        insert into account (id, part) values (new.account, new.part);
    exception
        when unique_violation then
            update account set amount = amount + 1 where id = new.account and part = new.part;
        when not_null_violation or sqlstate '22003' then
            insert into log values (new.no, 'no account');
    end;
    return null;
exception when others then
    raise exception 'the payment is not kept';
end $$;
create trigger keep_payment after insert on payment
    for each row execute function keep();
\session a
insert into payment (no, account) values (1, 7), (2, 7);
