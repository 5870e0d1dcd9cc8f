\setup
create table item (
    id int primary key,
    code text not null unique,
    price bigint default 100,
    sold bool default false,
    "Note" text
);
create table stock (shelf int, place int, item int, primary key (shelf, place));
\session a
insert into item values (1, 'pen', default, default, 'it''s blue');
insert into item (id, code) values (2, 'ink'), (3, 'cap');
