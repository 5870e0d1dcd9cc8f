\setup
CREATE TABLE node (id integer PRIMARY KEY, weight integer);
CREATE TABLE edge (source integer REFERENCES node, target integer REFERENCES node);
