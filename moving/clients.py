"""Lets psql, or the client of MariaDB and MySQL, write RT's tables as one text: all of one moment,
in one transaction that only reads. The first line is `# CLIENT`, each kind of row stands behind a
line `# KIND`, and the last line is `# end`.

Both write a row a line, words between tabs, and a line feed, a tab and a backslash behind a
backslash. psql writes \\N for nothing. mysql writes NULL, also for the text NULL: so it gets a dot
before each text."""
import tables

PSQL = """#!/bin/sh
# Writes RT's tables to the standard output. Its arguments are psql's: how the database is reached.
exec psql -X --quiet --set ON_ERROR_STOP=1 "$@" <<'END'
BEGIN ISOLATION LEVEL REPEATABLE READ READ ONLY;
SET client_encoding TO 'UTF8';
SET datestyle TO 'ISO';
\\echo # psql
{}
COMMIT;
\\echo # end
END
"""
MYSQL = """#!/bin/sh
# Writes RT's tables to the standard output. Its arguments are the client's: how the database is
# reached.
client=$(command -v mariadb || command -v mysql || echo mysql)
exec "$client" "$@" --batch --quick --skip-column-names --default-character-set=utf8mb4 \\
    --max-allowed-packet=1G <<'END'
SET SESSION TRANSACTION ISOLATION LEVEL REPEATABLE READ;
START TRANSACTION WITH CONSISTENT SNAPSHOT, READ ONLY;
SELECT '# mysql';
{}
COMMIT;
SELECT '# end';
END
"""


def mysql_column(kind, what):
    if kind == "n":
        return what
    return f"COALESCE({what}, '')" if kind == "b" else f"CONCAT('.', {what})"


def psql_column(kind, what):
    return f"COALESCE({what}, '')" if kind == "b" else what


def psql(name):
    statement = tables.text_of(name, "OCTET_LENGTH(Content)", column=psql_column)
    return f"\\echo # {name}\nCOPY ({statement}) TO STDOUT;"


def mysql(name):
    statement = tables.text_of(name, "OCTET_LENGTH(Content)", "`Groups`", mysql_column)
    return f"SELECT '# {name}';\n{statement};"


CLIENTS = {"psql": (PSQL, psql), "mysql": (MYSQL, mysql)}


def commands(client, with_files):
    """A program of the shell that lets the client write all the tables."""
    program, statement = CLIENTS[client]
    left_out = "bodies" if with_files else "whole_bodies"
    return program.format("\n".join(statement(name) for name in tables.STATEMENTS if name != left_out))
