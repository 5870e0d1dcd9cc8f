\setup
create table account (id integer primary key, amount bigint not null default 0);
\session payer
begin isolation level repeatable read;
update account set amount = amount - 10 where id = 1;
savepoint before_fee;
update account set amount = amount - 1 where id = 1 and not amount is null;
rollback to before_fee;
commit;
\session reader
select id, amount from account where amount > 0 or id = 1 + 2 * 3 for share;
\schedule payer*3 reader payer*2
