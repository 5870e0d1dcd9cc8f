-- A trigger fires after its event: this script is refused on line 4.
\setup
CREATE TABLE item (id integer PRIMARY KEY, price integer);
CREATE TRIGGER check_price BEFORE INSERT ON item FOR EACH ROW EXECUTE FUNCTION check_price();
\session shop
INSERT INTO item VALUES (1, 250);
