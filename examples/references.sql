\setup
create table customer (id integer primary key, nick text unique);
create table orders (
    id integer primary key,
    customer integer not null references customer on delete cascade,
    friend text references customer (nick) match full on update cascade initially deferred
);
create table line (
    orders integer,
    no integer,
    primary key (orders, no),
    constraint line_order foreign key (orders) references orders on delete restrict
);
alter table customer add unique (nick, id);
