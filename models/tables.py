"""Tables that a case makes or asks by SQL, and the desk of the model for which they stand, by
docs/tables.md."""
import sqlite3

from hours import END, START
from rules import Desk, Entry, Link, Queue, Request
from settings import Lifecycle
from stored import lines_of

ROLES = [None, "requestor", "cc", "admincc"]
LINKS = [None, "DependsOn", "MemberOf", "RefersTo"]
ENTRIES = [None, "create", "status", "owner", "reply", "comment", "watch", "unwatch", "link",
           "unlink", "level"]
GREATEST = 4294967295


class NoDesk(Exception):
    """Tables that stand for no desk: another version, or a row that is no value."""


def desk_of(statements, settings):
    """The desk for which the tables stand that the statements make."""
    connection = sqlite3.connect(":memory:")
    connection.executescript(statements)
    if rows_of(connection, "meta", "version") not in ([(1,)], [(2,)]):
        raise NoDesk
    desk = Desk(settings)
    for name, cycle, level in rows_of(connection, "queue", "name, lifecycle, level"):
        is_value(isinstance(name, str) and isinstance(cycle, str))
        lifecycle = settings.lifecycles.get(cycle) or Lifecycle(cycle, {})
        desk.by_name[name] = Queue(name, lifecycle, level)
    put_requests(connection, desk)
    put_parts(connection, desk)
    return desk


def rows_of(connection, table, columns, order="1"):
    return connection.execute(f"SELECT {columns} FROM {table} ORDER BY {order}").fetchall()


def is_value(holds):
    if not holds:
        raise NoDesk


def put_requests(connection, desk):
    columns = "id, queue, subject, status, owner, level, created, opened, turn, since, due"
    for row in rows_of(connection, "request", columns):
        number, queue, subject, status, owner, level, created, opened, turn, since, due = row
        is_value(number == len(desk.requests) + 1 and turn in (0, 1))
        is_value(due is None or START <= due <= END)
        request = Request(number, desk.queue_of(queue), subject, status, created)
        request.owner, request.level, request.is_desks_turn = owner, level, turn == 0
        request.opened, request.since = opened, since
        desk.requests.append(request)


def put_parts(connection, desk):
    """Puts the persons, the links and the histories of the requests."""
    for number, role, person in rows_of(connection, "watcher", "request, role, person"):
        is_value(role in (1, 2, 3))
        desk.request_of(number).roles[ROLES[role]].add(person)
    for source, kind, target in rows_of(connection, "link", "source, kind, target"):
        is_value(kind in (1, 2, 3))
        desk.links.add(Link(source, LINKS[kind], target))
    columns = "request, number, moment, actor, kind, head, body"
    for request, number, moment, actor, kind, head, body in rows_of(
            connection, "entry", columns, "request, number"):
        is_value(kind in range(1, 11) and request <= GREATEST and number <= GREATEST)
        is_value(START <= moment <= END)
        is_value(all(isinstance(text, str) for text in (actor, head, body)))
        entry = Entry(number, moment, actor, ENTRIES[kind], head, body)
        desk.request_of(request).entries.append(entry)
    if connection.execute("SELECT 1 FROM sqlite_master WHERE name = 'stay'").fetchall():
        for request, number in rows_of(connection, "stay", "request, number"):
            is_value(request <= GREATEST and number <= GREATEST)


COLUMNS = {
    "queue": "name, lifecycle, level",
    "request": "id, queue, subject, status, owner, level, created, opened, turn, since, due",
    "watcher": "request, role, person", "link": "source, kind, target",
    "entry": "request, number, moment, actor, kind, head, body",
    "stay": "request, number, status, begun, ended"}


def answered(desk, queries):
    """What the queries give of the tables that stand for a desk: the numbers of each row."""
    connection = sqlite3.connect(":memory:")
    for table, columns in COLUMNS.items():
        connection.execute(f"CREATE TABLE {table} ({columns})")
    for table, row in rows_for(desk):
        connection.execute(f"INSERT INTO {table} VALUES ({', '.join('?' * len(row))})", row)
    told = ""
    for query in lines_of(queries):
        rows = [" ".join(map(str, row)) for row in connection.execute(query)]
        told += "".join(f"{line}\n" for line in [f"{query}:", *(f"  {row}" for row in rows)])
    return told


def rows_for(desk):
    """The rows of the tables, each with the name of its table."""
    for queue in desk.by_name.values():
        yield "queue", (queue.name, queue.lifecycle.name, queue.level)
    for link in desk.links:
        yield "link", (link.source, LINKS.index(link.kind), link.target)
    for request in desk.requests:
        yield "request", (
            request.number, request.queue.name, request.subject, request.status, request.owner,
            request.level, request.created, request.opened, int(not request.is_desks_turn),
            request.since, desk.due(request))
        yield from parts_for(request)


def parts_for(request):
    for role, persons in request.roles.items():
        for person in persons:
            yield "watcher", (request.number, ROLES.index(role), person)
    for entry in request.entries:
        yield "entry", (request.number, *entry[:3], ENTRIES.index(entry.kind), *entry[4:])
    for number, (status, begun, ended) in enumerate(request.stays(), 1):
        is_last = number == len(request.stays())
        yield "stay", (request.number, number, status, begun, None if is_last else ended)
