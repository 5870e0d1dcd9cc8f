"""Writes a script to standard output: script.py SHAPE SIZE

statements  so many statements in all
bytes       so many bytes, most of them in texts of 1,000 bytes
code        a function whose code has so many blocks, each with a statement and a handler with another
nested      one expression of so many tokens: a number in parentheses
open        one expression of so many parentheses that are never closed
ifs         a function with so many IFs open within the block of its code
bodies      a trigger whose function has so many statements, over 64 tables of 32 columns
blocks      a trigger whose function has so many blocks, each with a statement and a handler with another
functions   so many functions, and 64 triggers that name the last of them
keys        so many unique keys of one table, each added by a statement that names it
defaults    the same with names by default
constraints a table with so many unique keys with names by default, all in one statement
columns     a unique key with a name, over so many columns, none of which is there

The last statement of the first three is refused, so that nothing is run.
"""
import sys

TABLE = "\\setup\nCREATE TABLE t (a integer);\n\\session s\n"
END = "TRUNCATE t;\n"
ROWS = 100


def statements(size):
    return TABLE + "INSERT INTO t VALUES (1);\n" * (size - 2) + END


def in_bytes(size):
    row = "('" + "x" * 1000 + "')"
    insert = "INSERT INTO t VALUES " + ", ".join([row] * ROWS) + ";\n"
    room = size - len(TABLE) - len(END)
    return TABLE + insert * (room // len(insert)) + " " * (room % len(insert)) + END


def nested(size):
    pairs = (size - 1) // 2
    return TABLE + "SELECT * FROM t WHERE " + "(" * pairs + "1" + ")" * pairs + ";\n"


def opened(size):
    return TABLE + "SELECT * FROM t WHERE " + "(" * size + ";\n"


def ifs(size):
    body = "IF TRUE THEN " * size + "RETURN NULL; " + "END IF; " * size
    return "\\setup\nCREATE FUNCTION f() RETURNS trigger LANGUAGE plpgsql AS $$ BEGIN " + body + "END $$;\n"


def tables():
    columns = ", ".join("c%d integer" % n for n in range(1, 32))
    return "".join("CREATE TABLE t%d (c0 integer PRIMARY KEY, %s);\n" % (n, columns) for n in range(64))


def function(name, body):
    return "CREATE FUNCTION %s() RETURNS trigger LANGUAGE plpgsql AS $$ BEGIN %s RETURN NULL; END $$;\n" % (name, body)


def trigger(name, function):
    return "CREATE TRIGGER %s AFTER UPDATE ON t0 FOR EACH ROW EXECUTE FUNCTION %s();\n" % (name, function)


def bodies(size):
    forms = [
        "INSERT INTO t%d (c0, c31) VALUES (NEW.c0, OLD.c31 + 1); ",
        "UPDATE t%d SET c5 = c6 + 1 WHERE c31 = NEW.c30; ",
        "DELETE FROM t%d WHERE c30 = OLD.c29 AND c28 > 5; ",
    ]
    statements = "".join(forms[n % 3] % (n % 64) for n in range(size))
    return "\\setup\n" + tables() + function("f", statements) + trigger("x", "f")


def in_blocks(size):
    block = "BEGIN INSERT INTO t%d (c0) VALUES (NEW.c0); EXCEPTION WHEN unique_violation OR SQLSTATE '22003' THEN DELETE FROM t%d WHERE c30 = OLD.c29; END; "
    return function("f", "".join(block % (n % 64, n % 64) for n in range(size)))


def code(size):
    return "\\setup\n" + in_blocks(size) + "\\session s\n" + END


def blocks(size):
    return "\\setup\n" + tables() + in_blocks(size) + trigger("x", "f")


def functions(size):
    made = "".join(function("f%d" % n, "") for n in range(size))
    named = "".join(trigger("x%d" % n, "f%d" % (size - 1)) for n in range(64))
    return "\\setup\nCREATE TABLE t0 (c0 integer);\n" + made + named


def keys(size):
    return "\\setup\nCREATE TABLE t0 (c0 integer);\n" + "".join("ALTER TABLE t0 ADD CONSTRAINT k%d UNIQUE (c0);\n" % n for n in range(size))


def defaults(size):
    return "\\setup\nCREATE TABLE t0 (c0 integer);\n" + "ALTER TABLE t0 ADD UNIQUE (c0);\n" * size


def constraints(size):
    return "\\setup\nCREATE TABLE t0 (c0 integer" + ", UNIQUE (c0)" * size + ");\n"


def columns(size):
    return "\\setup\nCREATE TABLE t0 (c0 integer, CONSTRAINT k UNIQUE (" + ", ".join("d%d" % n for n in range(size)) + "));\n"


SHAPES = {
    "statements": statements,
    "bytes": in_bytes,
    "code": code,
    "nested": nested,
    "open": opened,
    "ifs": ifs,
    "bodies": bodies,
    "blocks": blocks,
    "functions": functions,
    "keys": keys,
    "defaults": defaults,
    "constraints": constraints,
    "columns": columns,
}

sys.stdout.write(SHAPES[sys.argv[1]](int(sys.argv[2])))
