"""Tries how tables are read: as of one moment, without a write, and in little memory. While they are read
another client files a ticket: the tables that are written mustn't have it, and those that are written
afterwards must. A program that itself would file one has to fail. And bodies of 60 MB mustn't be in the
client's memory."""
import os
import shlex
import sqlite3
import subprocess

import clients
import rows

# the lines of the clients' programs that stand before tickets
MARKS = {"psql": "\\echo # tickets", "mysql": "SELECT '# tickets';"}
FILED = "INSERT INTO Tickets (id, EffectiveId, Queue, Type, Owner, Subject, Status, Creator, Created)" \
    " VALUES ({0}, {0}, 1, 'ticket', 6, 'late', 'open', 1, '2026-03-03 09:00:00');"

BODIES = "INSERT INTO Attachments (id, TransactionId, Parent, ContentType, Content)" \
    " WITH RECURSIVE one (id) AS (SELECT 9000 UNION ALL SELECT id + 1 FROM one WHERE id < 9059)" \
    " SELECT id, 1001, 0, 'text/plain', REPEAT('x', 1048576) FROM one;"
MOST_MEMORY = 40    # MB of a client, which has some 10 without any row


def count(place):
    return sum(1 for _ in rows.read(place, "tickets"))


def with_line(client, line):
    """The client's program, with a line of its own before the tickets."""
    told, mark = clients.commands(client, False), MARKS[client]
    if told.count(mark) != 1:
        raise ValueError(f"the program for {client} has {told.count(mark)} lines {mark}")
    return told.replace(mark, f"{line}\n{mark}")


def program_at(database, program):
    path = os.path.join(database.room, "late.sh")
    with open(path, "w", encoding="utf-8") as file:
        file.write(program)
    return path


def written(database, program):
    """How many tickets a program of the shell writes."""
    return count(rows.open_tables(database.written(program_at(database, program))))


def is_refused(database, program):
    try:
        database.run("sh", program_at(database, program), *database.client("rt")[1:],
                     stdout=subprocess.DEVNULL, stderr=subprocess.DEVNULL)
    except subprocess.CalledProcessError:
        return True
    return False


def memory(database, program):
    """How many MB a client takes at most."""
    words = ["sh", program_at(database, program), *database.client("rt")[1:]]
    process = subprocess.Popen(words, env=database.packages.environment(), stdout=subprocess.DEVNULL)
    _, status, used = os.wait4(process.pid, 0)
    process.returncode = os.waitstatus_to_exitcode(status)
    return used.ru_maxrss / 1024 if status == 0 else float("inf")


def differences(before, during, after):
    return [] if (during, after) == (before, before + 1) else \
        [f"{before} tickets before, {during} while another is filed, {after} after"]


def of_server(database):
    """What is wrong with a server's client."""
    client = database.program_of
    before = written(database, clients.commands(client, False))
    late = os.path.join(database.room, "late.sql")
    with open(late, "w", encoding="utf-8") as file:
        file.write(FILED.format(9001))
    other = f"\\! {shlex.join(database.client('rt'))} < {shlex.quote(late)}"
    during = written(database, with_line(client, other))
    after = written(database, clients.commands(client, False))
    wrong = differences(before, during, after)
    if not is_refused(database, with_line(client, FILED.format(9002))):
        wrong.append("a program that files a ticket isn't refused")
    database.sql(BODIES)
    used = memory(database, clients.commands(client, False))
    return wrong + ([f"{used:.0f} MB of a client's memory"] if used > MOST_MEMORY else [])


def of_file(database):
    """What is wrong with a file of SQLite."""
    writer = sqlite3.connect(database.path)
    writer.execute("PRAGMA journal_mode = WAL")
    first = rows.open_tables(database.path)
    before = count(first)
    writer.execute(FILED.format(9001))
    writer.commit()
    second = rows.open_tables(database.path)
    during, after = count(first), count(second)
    for file in (first.file, second.file):
        file.close()
    writer.execute("PRAGMA journal_mode = DELETE")
    writer.close()
    return differences(before, during, after)


def wrong_of(database):
    return of_server(database) if hasattr(database, "program_of") else of_file(database)
