\setup
CREATE TABLE node (id integer PRIMARY KEY, up integer REFERENCES node);
\session a
INSERT INTO node VALUES (1, NULL), (2, 1);
DELETE FROM node;
