"""What the move reads of RT's database: a statement for each kind of row, plain enough for SQLite,
PostgreSQL and MariaDB or MySQL. All are read as of one moment.

A column is named with what it holds: `:n` a number, `:m` a moment, `:b` bytes, where nothing and no
bytes are one; else a text. The first column of each is a number, by which rows.py tells a row."""
import dataclasses

# only bodies are read: a file that somebody attached stays where it is, unless it is asked for
IS_BODY = "LOWER(ContentType) IN ('text/plain', 'text/html') AND COALESCE(Filename, '') = ''"
BODY = f"CASE WHEN {IS_BODY} OR ContentEncoding = 'quoted-printable' THEN Content END"
# of base64 the letters that stand for bytes, four for three
SIZE = "CASE WHEN ContentEncoding = 'base64' THEN LENGTH(REPLACE(REPLACE(Content, '\n', ''), '=', ''))" \
    " ELSE OCTETS(Content) END"
OTHERS = {
    "scrip": "Scrips WHERE Disabled = 0", "template": "Templates", "article": "Articles",
    "asset": "Assets", "custom field": "CustomFields WHERE Disabled = 0",
    "value of a custom field": "ObjectCustomFieldValues WHERE Disabled = 0",
    "saved search, dashboard or preference": "Attributes WHERE Name <> 'SLA'",
    "custom role": "CustomRoles WHERE Disabled = 0",
    "attachment of what is no ticket": "Attachments WHERE NOT EXISTS (SELECT 1 FROM Transactions"
                                       " WHERE Transactions.id = TransactionId AND ObjectType = 'RT::Ticket')",
}
IS_LEVEL_FIELD = "CustomFields.Name = 'SLA' AND CustomFields.LookupType = 'RT::Queue-RT::Ticket'"


@dataclasses.dataclass(frozen=True)
class Statement:
    columns: dict
    rest: str


def bodies(content):
    """The attachments of tickets, by their transactions."""
    return Statement({"transaction:n": "TransactionId", "id:n": "Attachments.id", "parent:n": "Parent",
                      "type": "ContentType", "encoding": "ContentEncoding", "name": "Filename",
                      "size:n": SIZE, "content:b": content},
                     "Attachments JOIN Transactions ON Transactions.id = Attachments.TransactionId"
                     " WHERE Transactions.ObjectType = 'RT::Ticket'"
                     " ORDER BY Attachments.TransactionId, Attachments.id")


STATEMENTS = {
    "users": Statement({"id:n": "Users.id", "name": "Users.Name", "address": "Users.EmailAddress",
                        "disabled:n": "Principals.Disabled"},
                       "Users JOIN Principals ON Principals.id = Users.id ORDER BY Users.id"),
    "groups": Statement({"id:n": "GROUPS.id", "name": "GROUPS.Name", "domain": "GROUPS.Domain",
                         "instance:n": "GROUPS.Instance", "disabled:n": "Principals.Disabled"},
                        "GROUPS JOIN Principals ON Principals.id = GROUPS.id"
                        " WHERE GROUPS.Domain <> 'RT::Ticket-Role' ORDER BY GROUPS.id"),
    "members": Statement({"group:n": "GroupId", "member:n": "MemberId"},
                         "GroupMembers JOIN GROUPS ON GROUPS.id = GroupId"
                         " WHERE GROUPS.Domain <> 'RT::Ticket-Role' ORDER BY GroupMembers.id"),
    "watchers": Statement({"ticket:n": "Instance", "role": "Name", "member:n": "MemberId"},
                          "GROUPS JOIN GroupMembers ON GroupId = GROUPS.id"
                          " WHERE GROUPS.Domain = 'RT::Ticket-Role' AND Name <> 'Owner'"
                          " ORDER BY GroupMembers.id"),
    "queues": Statement({"id:n": "id", "name": "Name", "lifecycle": "Lifecycle",
                         "no_level:n": "SLADisabled", "disabled:n": "Disabled"}, "Queues ORDER BY id"),
    "queue_levels": Statement({"queue:n": "ObjectId", "level": "Content"}, "Attributes"
                              " WHERE ObjectType = 'RT::Queue' AND Name = 'SLA' ORDER BY id"),
    "rights": Statement({"id:n": "ObjectId", "object": "ObjectType", "kind": "PrincipalType",
                         "principal:n": "PrincipalId", "right": "RightName"}, "ACL ORDER BY id"),
    "tickets": Statement({"id:n": "id", "into:n": "EffectiveId", "queue:n": "Queue", "type": "Type",
                          "owner:n": "Owner", "subject": "Subject", "status": "Status", "level": "SLA",
                          "creator:n": "Creator", "created:m": "Created", "priority:n": "Priority",
                          "worked:n": "TimeWorked"}, "Tickets ORDER BY id"),
    "level_fields": Statement({"field:n": "id"}, f"CustomFields WHERE {IS_LEVEL_FIELD} ORDER BY id"),
    "level_values": Statement({"ticket:n": "ObjectId", "level": "Content"},
                              "ObjectCustomFieldValues JOIN CustomFields ON CustomFields.id = CustomField"
                              f" WHERE {IS_LEVEL_FIELD} AND ObjectType = 'RT::Ticket'"
                              " AND ObjectCustomFieldValues.Disabled = 0"
                              " ORDER BY ObjectCustomFieldValues.id"),
    "transactions": Statement({"id:n": "id", "object": "ObjectType", "ticket:n": "ObjectId",
                               "type": "Type", "field": "Field", "old": "OldValue", "new": "NewValue",
                               "creator:n": "Creator", "created:m": "Created"},
                              "Transactions ORDER BY id"),
    "links": Statement({"base:n": "LocalBase", "kind": "Type", "target:n": "LocalTarget",
                        "creator:n": "Creator", "created:m": "Created"},
                       "Links WHERE LocalBase > 0 AND LocalTarget > 0 ORDER BY id"),
    "bodies": bodies(BODY),
    "whole_bodies": bodies("Content"),
    "others": Statement({"count:n": "number", "kind": "kind"}, "(" + " UNION ALL ".join(
        f"SELECT '{kind}' AS kind, COUNT(*) AS number FROM {table}" for kind, table in OTHERS.items())
        + ") AS counted"),
    "dues": Statement({"id:n": "id", "due:m": "Due"}, "Tickets ORDER BY id"),
}


def text_of(name, octets, groups="Groups", column=lambda kind, what: what):
    """The statement in the words of a database: how it counts bytes, how it writes the name of the
    table of groups, and how it tells a column of a kind."""
    told = STATEMENTS[name]
    columns = ", ".join(column(name.partition(":")[2], what) for name, what in told.columns.items())
    text = f"SELECT {columns} FROM {told.rest}"
    return text.replace("OCTETS(Content)", octets).replace("GROUPS", groups)
