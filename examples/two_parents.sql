\setup
CREATE TABLE customer (id integer PRIMARY KEY);
CREATE TABLE product (price integer, id integer PRIMARY KEY);
CREATE TABLE purchase (buyer integer REFERENCES customer, bought integer REFERENCES product);
\session a
INSERT INTO customer VALUES (1);
INSERT INTO product VALUES (500, 2);
INSERT INTO purchase VALUES (1, 2), (1, 5);
INSERT INTO purchase VALUES (1, 2);
