\setup
CREATE TABLE item (id integer PRIMARY KEY, price integer);
\session shop
INSERT INTO item VALUES (1, 250), (2, 300), (1, 275), (3, 120);
INSERT INTO item VALUES (3, 120);
