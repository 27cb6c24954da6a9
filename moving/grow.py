"""Makes a larger desk of one that RT's own API made, in RT's tables of PostgreSQL: of each ticket so many,
with all that belongs to it, in the order of their moments. The numbers of a ticket's copies follow each
other, and so do those of its transactions and texts."""
import re

FUNCTIONS = """CREATE TEMP TABLE role AS SELECT id FROM Groups WHERE Domain = 'RT::Ticket-Role';
CREATE UNIQUE INDEX role_id ON role (id);
CREATE FUNCTION pg_temp.ticket(id bigint, copy bigint) RETURNS bigint LANGUAGE sql IMMUTABLE
    AS 'SELECT CASE WHEN id = 0 THEN 0 ELSE (id - 1) * {copies} + copy + 1 END';
CREATE FUNCTION pg_temp.row(id bigint, copy bigint) RETURNS bigint LANGUAGE sql IMMUTABLE
    AS 'SELECT CASE WHEN id = 0 THEN 0 ELSE id * {copies} + copy END';
CREATE FUNCTION pg_temp.principal(id bigint, copy bigint) RETURNS bigint LANGUAGE sql
    AS 'SELECT CASE WHEN id IN (SELECT role.id FROM role) THEN {clear} + id * {copies} + copy ELSE id END';
CREATE FUNCTION pg_temp.address(told text, copy bigint) RETURNS text LANGUAGE sql IMMUTABLE AS
    $$SELECT CASE WHEN told ~ '^(fsck.com-rt://.*/ticket/)?\\d+$' THEN regexp_replace(told, '\\d+$', '')
        || pg_temp.ticket(substring(told FROM '\\d+$')::bigint, copy) ELSE told END$$;
"""
CLEAR = 10_000_000    # beyond the principals that belong to no ticket
# each table with the rows of which there are to be more, what changes in these, and what in the others
OF_ROLE = "{} IN (SELECT id FROM role)"
OF_TICKET = "(SELECT ObjectType FROM Transactions WHERE Transactions.id = {}) = 'RT::Ticket'"
ATTACHED = "id = row(id), TransactionId = row(TransactionId), Parent = row(Parent)"
TABLES = [
    ("Tickets", "TRUE", "id = ticket(id), EffectiveId = ticket(EffectiveId)", "id = id"),
    ("Attachments", OF_TICKET.format("TransactionId"), ATTACHED, ATTACHED),
    ("Transactions", "ObjectType = 'RT::Ticket'", "id = row(id), ObjectId = ticket(ObjectId),"
     " OldValue = CASE WHEN Type IN ('AddLink', 'DeleteLink') THEN address(OldValue) ELSE OldValue END,"
     " NewValue = CASE WHEN Type IN ('AddLink', 'DeleteLink') THEN address(NewValue) ELSE NewValue END",
     "id = row(id)"),
    ("Links", "Base LIKE '%/ticket/%' OR Target LIKE '%/ticket/%'", "id = row(id), Base = address(Base), Target = address(Target),"
     " LocalBase = ticket(LocalBase), LocalTarget = ticket(LocalTarget)", "id = row(id)"),
    ("Groups", OF_ROLE.format("id"), "id = principal(id), Instance = ticket(Instance)", "id = id"),
    ("Principals", OF_ROLE.format("id"), "id = principal(id)", "id = id"),
    ("GroupMembers", OF_ROLE.format("GroupId"), "id = row(id), GroupId = principal(GroupId)", "id = row(id)"),
    ("CachedGroupMembers", OF_ROLE.format("GroupId"), "id = row(id), Via = row(Via), GroupId = principal(GroupId),"
     " MemberId = principal(MemberId), ImmediateParentId = principal(ImmediateParentId)",
     "id = row(id), Via = row(Via)"),
]
TABLE = """CREATE TEMP TABLE grown AS SELECT {table}.*, number FROM {table}, generate_series(0, {last}) AS number
    WHERE {condition};
CREATE TEMP TABLE other AS SELECT {table}.*, 0 AS number FROM {table} WHERE NOT COALESCE({condition}, FALSE);
UPDATE grown SET {changes};
UPDATE other SET {of_others};
ALTER TABLE grown DROP COLUMN number;
ALTER TABLE other DROP COLUMN number;
DELETE FROM {table};
INSERT INTO {table} SELECT * FROM grown UNION ALL SELECT * FROM other;
DROP TABLE grown, other;
"""


def called(changes):
    """Changes as the functions above are called, each with the number of the copy."""
    return re.sub(r"\b(ticket|row|principal|address)\((\w+)\)", r"pg_temp.\1(\2, number)", changes)


def statements(copies):
    """The SQL that makes so many of each ticket."""
    parts = [TABLE.format(table=table, condition=condition, changes=called(changes), of_others=called(others),
                          last=copies - 1) for table, condition, changes, others in TABLES]
    return "\n".join(["BEGIN;", FUNCTIONS.format(copies=copies, clear=CLEAR), *parts, "COMMIT;", "ANALYZE;", ""])
