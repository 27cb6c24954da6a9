"""The tables as they stand in the file, beside those that the model has. sqlite3 reads a copy of the file
and its log."""
import contextlib
import os
import shutil
import sqlite3

from tables import COLUMNS, ENTRIES, LINKS, ROLES, parts_for, rows_for

OF_A_REQUEST = {"request": "id", "watcher": "request", "link": "source", "entry": "request", "stay": "request"}


@contextlib.contextmanager
def opened(path):
    """A connection to a copy of a file of tables with its log."""
    for end in ("", "-wal"):
        with contextlib.suppress(FileNotFoundError):
            os.remove(path + ".look" + end)
        if os.path.exists(path + end):
            shutil.copy(path + end, path + ".look" + end)
    with contextlib.closing(sqlite3.connect(path + ".look")) as tables:
        yield tables
    for end in ("", "-wal", "-shm"):
        with contextlib.suppress(FileNotFoundError):
            os.remove(path + ".look" + end)


def all_rows(tables):
    return {name: set(tables.execute(f"SELECT {columns} FROM {name}")) for name, columns in COLUMNS.items()}


def everything(path):
    """All that a file has: its tables and indexes as they were made, and the rows of each table."""
    with opened(path) as tables:
        made = set(tables.execute("SELECT type, name, sql FROM sqlite_master"))
        return made, {name: set(tables.execute(f"SELECT * FROM {name}")) for kind, name, _ in made if kind == "table"}


def unlike(path, other):
    """What two files don't have alike, or None."""
    (made, rows), (made_there, rows_there) = everything(path), everything(other)
    if made != made_there:
        return f"{made} beside {made_there}"
    return next((f"{name}: {sorted(rows[name] ^ rows_there[name], key=repr)[:3]} in one alone" for name in rows
                 if rows[name] != rows_there[name]), None)


def rows_of_model(desk):
    rows = {name: set() for name in COLUMNS}
    for name, row in rows_for(desk):
        rows[name].add(row)
    return rows


def difference(path, desk):
    """The first rows that stand in one of the two alone, and how many rows were compared; sqlite3 has to
    find the file whole."""
    with opened(path) as tables:
        whole = tables.execute("PRAGMA integrity_check").fetchall()
        there, here = all_rows(tables), rows_of_model(desk)
    count = sum(map(len, here.values()))
    if whole != [("ok",)]:
        return f"sqlite3 finds {whole}", count
    for name in COLUMNS:
        if there[name] != here[name]:
            return (f"{name}: the file has {sorted(there[name] - here[name], key=repr)[:3]} and not "
                    f"{sorted(here[name] - there[name], key=repr)[:3]}"), count
    return None, count


def rows_at(tables, number):
    """All rows of one request; those of the queues where it is none."""
    if number is None:
        return {"queue": set(tables.execute(f"SELECT {COLUMNS['queue']} FROM queue"))}
    return {name: set(tables.execute(f"SELECT {COLUMNS[name]} FROM {name} WHERE {column} = ?", (number,)))
            for name, column in OF_A_REQUEST.items()}


def rows_here(desk, number):
    """The same by the model."""
    if number is None:
        return {"queue": {(it.name, it.lifecycle.name, it.level) for it in desk.by_name.values()}}
    rows = {name: set() for name in OF_A_REQUEST}
    if 1 <= number <= len(desk.requests):
        one = desk.requests[number - 1]
        rows["request"].add((
            one.number, one.queue.name, one.subject, one.status, one.owner, one.level, one.created, one.opened,
            int(not one.is_desks_turn), one.since, desk.due(one)))
        for name, row in parts_for(one):
            rows[name].add(row)
        rows["link"] = {(it.source, LINKS.index(it.kind), it.target) for it in desk.links if it.source == number}
    return rows


def filed_after(tables, count):
    """The requests with higher numbers: each number with its subject."""
    return tables.execute("SELECT id, subject FROM request WHERE id > ? ORDER BY id", (count,)).fetchall()


__all__ = ["ENTRIES", "ROLES", "difference", "filed_after", "opened", "rows_at", "rows_here", "unlike"]
