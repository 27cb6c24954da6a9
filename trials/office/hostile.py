"""Hostile texts in each field: of each command, in each way in, and of a search."""
import datetime
import re

from rules import NAME
from words import KINDS, ROLES

from office import texts
from office.asks import Ask

# the fields of each command, by their places among its words; those without a place are the second command's
FIELDS = {
    "queue": {"queue": 0, "lifecycle": 1, "level": 2},
    "create": {"queue": 0, "subject": 1, "status": 2, "requestors": 3, "text": None},
    "status": {"number": 0, "status": 1}, "give": {"number": 0, "person": 1},
    "correspond": {"number": 0, "text": 1, "status": None}, "comment": {"number": 0, "text": 1},
    "watch": {"number": 0, "role": 1, "person": 2}, "unwatch": {"number": 0, "role": 1, "person": 2},
    "link": {"number": 0, "kind": 1, "other": 2}, "unlink": {"number": 0, "kind": 1, "other": 2},
    "level": {"number": 0, "level": 1}, "ls": {"queue": 0},
    **{name: {"number": 0} for name in ("take", "steal", "untake", "show", "history")}}
SEARCH = ["words", "replies", "queue", "state", "status", "owner", "requestor", "turn", "late", "from", "to", "order"]
EACH = [(name, field) for name, fields in FIELDS.items() for field in fields] + [("find", it) for it in SEARCH]
# what these fields take is spelled by the desk itself, and any other word is no command
SPELLED = {"number", "role", "kind", "other"}
CHOICES = {"state": ["open", "closed"], "replies": ["yes"], "late": ["yes"], "turn": ["desk", "requestor"],
           "order": ["newest", "oldest", "due", "due-last", "active", "quiet"]}


def hostile(choose, name, field, at, way, by, queue, number):
    """A command or a search with a hostile text in that field. Its other words are in order."""
    if name == "find":
        return Ask(at, "page", by, "find", [{field: choose.choice(fitting(field, "page"))}])
    place = FIELDS[name][field]
    if place is None:
        way = "page"
    elif way == "page" and is_of_address(name, field):
        way = "http"
    ask = Ask(at, way, by, name, plain_words(choose, name, queue, number, by))
    text = choose.choice(fitting(field, way, place is None, is_of_address(name, field)))
    if place is None:
        ask.then = text
    else:
        ask.words[place] = [text] if field == "requestors" else text
    return ask


def is_of_address(name, field):
    """Whether a page has it in its address alone, where nobody fills it in."""
    return field == "number" or field == "queue" and name != "queue"


def fitting(field, way, is_second=False, is_of_path=False):
    """The hostile texts of a field. An empty one is none in a form, and no path has it; `0` is a number."""
    some = texts.HOSTILE + texts.REFUSED + (texts.LONG if field == "text" else [])
    if field in SPELLED:
        some = [it for it in some if it != "0"]
    if is_of_path or is_second or field in ("level", "status", *SEARCH) and way == "page":
        some = [it for it in some if it]
    return some


def plain_words(choose, name, queue, number, by):
    """Words that are in order."""
    more = {"status": ["open"], "give": [by], "correspond": ["a reply"], "comment": ["a comment"],
            "watch": [choose.choice(ROLES), by], "unwatch": [choose.choice(ROLES), by],
            "link": [choose.choice(KINDS), 1], "unlink": [choose.choice(KINDS), 1], "level": ["standard"]}
    if name == "queue":
        return ["another", "default", "standard"]
    if name == "create":
        return [queue, f"for {by} at {choose.randrange(1000)}", None, []]
    return [queue] if name == "ls" else [number, *more.get(name, [])]


# ---- what can't be a command

def unspelled(ask):
    """The field whose word makes it no command, or None."""
    for field, place in FIELDS.get(ask.name, {}).items():
        if field in SPELLED and place < len(ask.words) and not is_spelled(field, ask.words[place]):
            return field
    return None


def is_spelled(field, word):
    if field == "role":
        return word in ROLES
    return word in KINDS if field == "kind" else type(word) is int


def is_search(fields):
    """Whether the fields of an address are such as the form for a search sends."""
    names = all(NAME.fullmatch(fields[it]) or fields[it] in known for it, known in (
        ("queue", [""]), ("status", [""]), ("owner", ["", "Me", "Nobody"]), ("requestor", ["", "Me"]))
        if it in fields)
    return (names and all(is_day(fields[it]) for it in ("from", "to") if fields.get(it))
            and all(fields[it] in ["", *some] for it, some in CHOICES.items() if it in fields)
            and not (fields.get("state") and fields.get("status")))


def is_day(text):
    if not re.fullmatch("[0-9]{4}-[0-9]{2}-[0-9]{2}", text):
        return False
    try:
        return bool(datetime.date.fromisoformat(text))
    except ValueError:
        return False
