#!/usr/bin/env python3
"""Makes tables of a grown RT in a file of SQLite, straight by SQL: tickets with ten transactions and
some five texts each, in the order of their moments. The columns are those that moving/tables.py reads,
as RT's own schema has them.

    bench/moving/make.py FILE TICKETS"""
import os
import sqlite3
import sys

STAFF, PER_PERSON = 50, 10    # people of the desk, and tickets of each who asks
SCHEMA = """
CREATE TABLE Principals (id INTEGER PRIMARY KEY, PrincipalType varchar(16), Disabled int2 NOT NULL DEFAULT 0);
CREATE TABLE Users (id INTEGER, Name varchar(200), EmailAddress varchar(120));
CREATE TABLE Groups (id INTEGER, Name varchar(200), Domain varchar(64), Instance integer);
CREATE INDEX Groups1 ON Groups (Domain, Name, Instance);
CREATE TABLE GroupMembers (id INTEGER PRIMARY KEY, GroupId integer, MemberId integer);
CREATE TABLE Queues (id INTEGER PRIMARY KEY, Name varchar(200), Lifecycle varchar(32),
    SLADisabled int2 NOT NULL DEFAULT 1, Disabled int2 NOT NULL DEFAULT 0);
CREATE TABLE Attributes (id INTEGER PRIMARY KEY, Name varchar(255), Content blob, ObjectType varchar(64),
    ObjectId integer);
CREATE TABLE ACL (id INTEGER PRIMARY KEY, PrincipalType varchar(25), PrincipalId integer, RightName varchar(25),
    ObjectType varchar(25), ObjectId integer);
CREATE TABLE Tickets (id INTEGER PRIMARY KEY, EffectiveId integer, Queue integer, Type varchar(16), Owner integer,
    Subject varchar(200), Priority integer, TimeWorked integer, Status varchar(64), SLA varchar(64), Due DATETIME,
    Creator integer, Created DATETIME);
CREATE TABLE Transactions (id INTEGER PRIMARY KEY, ObjectType varchar(255), ObjectId integer, Type varchar(20),
    Field varchar(255), OldValue varchar(255), NewValue varchar(255), Creator integer, Created DATETIME);
CREATE TABLE Attachments (id INTEGER PRIMARY KEY, TransactionId integer, Parent integer, Filename varchar(255),
    ContentType varchar(80), ContentEncoding varchar(80), Content LONGTEXT);
CREATE INDEX Attachments2 ON Attachments (TransactionId);
CREATE TABLE Links (id INTEGER PRIMARY KEY, Type varchar(20), LocalTarget integer, LocalBase integer,
    Creator integer, Created DATETIME);
CREATE TABLE CustomFields (id INTEGER PRIMARY KEY, Name varchar(200), LookupType varchar(255), Disabled int2);
CREATE TABLE ObjectCustomFieldValues (id INTEGER PRIMARY KEY, CustomField int, ObjectType varchar(255), ObjectId int,
    Content varchar(255), Disabled int2);
CREATE TABLE Scrips (Disabled int2); CREATE TABLE Templates (id INTEGER); CREATE TABLE Articles (id INTEGER);
CREATE TABLE Assets (id INTEGER); CREATE TABLE CustomRoles (Disabled int2);
CREATE TEMP TABLE ticket (id INTEGER PRIMARY KEY, asker integer, helper integer, begun integer);
CREATE TEMP TABLE step (place INTEGER PRIMARY KEY, type, field, old, new, actor, hours);
CREATE TEMP TABLE event (id INTEGER PRIMARY KEY, ticket integer, place integer, moment integer);
"""
# each ticket's ten transactions: who acts is the asker, the helper or RT itself
STEPS = [
    ("Create", None, None, None, "asker", 0), ("Set", "Due", None, None, "rt", 0),
    ("Set", "Owner", "6", "helper", "helper", 3), ("Correspond", None, None, None, "helper", 5),
    ("Status", "Status", "new", "open", "rt", 5), ("EmailRecord", None, None, None, "rt", 5),
    ("Correspond", None, None, None, "asker", 21), ("Comment", None, None, None, "helper", 30),
    ("Correspond", None, None, None, "helper", 52), ("Status", "Status", "open", "resolved", "helper", 400),
]
ROWS = """
INSERT INTO ticket WITH RECURSIVE one (id) AS (SELECT 1 UNION ALL SELECT id + 1 FROM one WHERE id < {count})
    SELECT id, 1000 + id * 7919 % ({count} / {per_person} + 1), 100 + id % {staff}, 1420106400 + id * 900 FROM one;
INSERT INTO Users SELECT 1, 'RT_System', NULL UNION ALL SELECT 6, 'Nobody', NULL;
INSERT INTO Users SELECT DISTINCT helper, 'helper' || helper, 'helper' || helper || '@desk.example' FROM ticket;
INSERT INTO Users SELECT DISTINCT asker, 'person' || asker || '@customers.example',
    'person' || asker || '@customers.example' FROM ticket;
INSERT INTO Principals SELECT id, 'User', 0 FROM Users;
INSERT INTO Queues (id, Name, Lifecycle) VALUES (1, 'General', 'default'), (3, 'Support', 'default');
INSERT INTO Tickets SELECT id, id, 1 + 2 * (id % 2), 'ticket', helper, 'Ticket ' || id || ' of a grown desk', id % 5, 0,
    'resolved', NULL, NULL, asker, datetime(begun, 'unixepoch') FROM ticket;
INSERT INTO Groups SELECT 10000000 + id * 4, 'Requestor', 'RT::Ticket-Role', id FROM ticket
    UNION ALL SELECT 10000001 + id * 4, 'Owner', 'RT::Ticket-Role', id FROM ticket
    UNION ALL SELECT 10000002 + id * 4, 'Cc', 'RT::Ticket-Role', id FROM ticket
    UNION ALL SELECT 10000003 + id * 4, 'AdminCc', 'RT::Ticket-Role', id FROM ticket;
INSERT INTO GroupMembers SELECT NULL, 10000000 + id * 4, asker FROM ticket
    UNION ALL SELECT NULL, 10000001 + id * 4, helper FROM ticket;
CREATE UNIQUE INDEX GroupMembers1 ON GroupMembers (GroupId, MemberId);
INSERT INTO event SELECT NULL, ticket.id, place, begun + hours * 3600 FROM ticket, step
    ORDER BY begun + hours * 3600, ticket.id, place;
INSERT INTO Transactions SELECT event.id, 'RT::Ticket', event.ticket, type, field, old,
    CASE new WHEN 'helper' THEN CAST(helper AS TEXT) ELSE new END,
    CASE actor WHEN 'asker' THEN asker WHEN 'helper' THEN helper ELSE 1 END, datetime(moment, 'unixepoch')
    FROM event JOIN step ON step.place = event.place JOIN ticket ON ticket.id = event.ticket;
INSERT INTO Attachments SELECT NULL, id, 0, NULL, 'text/plain', 'none',
    'Text ' || id || '. ' || substr(text, 1 + id * 37 % 900, 100 + id * 11 % 400)
    FROM Transactions, (SELECT replace(hex(zeroblob(200)), '00', 'toner ') || hex(zeroblob(300)) AS text)
    WHERE Type IN ('Create', 'Correspond', 'Comment');
INSERT INTO Attachments SELECT NULL, id, 0, 'photo' || id || '.jpg', 'image/jpeg', 'none', CAST(randomblob(2000) AS TEXT)
    FROM Transactions WHERE Type = 'Correspond' AND id % 6 = 0;
INSERT INTO Attachments SELECT NULL, id, 0, NULL, 'message/rfc822', 'none', 'To: somebody' FROM Transactions
    WHERE Type = 'EmailRecord';
INSERT INTO Links SELECT NULL, CASE id % 4 WHEN 0 THEN 'DependsOn' ELSE 'RefersTo' END, id - 1 - id % 90, id, helper,
    datetime(begun, 'unixepoch') FROM ticket WHERE id % 2 = 0 AND id > 100;
UPDATE Transactions SET Type = 'AddLink', Field = 'DependsOn', NewValue = 'fsck.com-rt://big/ticket/' || (ObjectId - 1 - ObjectId % 90)
    WHERE Field = 'Due' AND ObjectId % 4 = 0 AND ObjectId > 100;
"""


def make(path, count):
    if os.path.exists(path):
        os.remove(path)
    file = sqlite3.connect(path)
    file.executescript("PRAGMA journal_mode = OFF; PRAGMA synchronous = OFF; PRAGMA temp_store = MEMORY;" + SCHEMA)
    file.executemany("INSERT INTO step VALUES (NULL, ?, ?, ?, ?, ?, ?)", STEPS)
    file.executescript(ROWS.format(count=count, staff=STAFF, per_person=PER_PERSON))
    file.commit()
    found = [file.execute(f"SELECT COUNT(*) FROM {table}").fetchone()[0] for table in ("Transactions", "Attachments")]
    file.close()
    return found


if __name__ == "__main__":
    if len(sys.argv) != 3:
        sys.exit(__doc__)
    print("{:,} transactions, {:,} attachments".format(*make(sys.argv[1], int(sys.argv[2]))))
