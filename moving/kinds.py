"""What RT's transactions mean, each by its type, field and values."""
import re

ROLES = {"Requestor": "requestor", "Cc": "cc", "AdminCc": "admincc"}
ROLE_PLACES = {role: place for place, role in enumerate(ROLES)}
KINDS = ("DependsOn", "MemberOf", "RefersTo")
INVERSES = {"DependedOnBy": "DependsOn", "HasMember": "MemberOf", "ReferredToBy": "RefersTo"}
WRITING = ("Correspond", "Comment")
OWNING = {"Set", "Give", "Take", "Steal", "Untake", "Force"}
TICKET = re.compile(r"(?:fsck\.com-rt://[^/]+/ticket/)?(\d+)")


def other_end(text):
    """The ticket at the other end of a link, or none where it is an address."""
    found = TICKET.fullmatch(text or "")
    return int(found[1]) if found else None


def user_in(text):
    """The id of a user in a transaction, or none where it names nobody."""
    return int(text) if (text or "").isdigit() else None


def sets_owner(it):
    return it.field == "Owner" and it.type in OWNING and user_in(it.new) is not None \
        and user_in(it.old) is not None


def sets_status(it):
    return it.type == "Status" or (it.type, it.field) == ("Set", "Status")


def status_in(text):
    """RT doesn't tell capitals of a status from small letters."""
    return (text or "unknown").lower()


def merges(it):
    """The ticket into which this one is merged. RT writes that into the other's history too."""
    if it.type == "AddLink" and it.field == "MergedInto" and other_end(it.new) != it.ticket:
        return other_end(it.new)
    return None


def name_of(it):
    """The kind of a transaction as the report tells it. Fields of a custom field are numbers."""
    if it.object != "RT::Ticket":
        return f"of {it.object or 'nothing'}"
    field = "" if it.type == "CustomField" else it.field or ""
    return f"{it.type or 'of no type'} {field}".strip()
