"""What the pages tell, by docs/pages.md: the facts of each page for a caller at a moment, as plain
values. A page's words and its markup are none of them."""
from answers import INVERSES, owner_text
from finding import ANY, found, told
from hours import DAY, moment_text
from rules import Refused, refuse_if

ROWS, FIRST_ROWS, SUGGESTED = 100, 20, 200
DASH = "–"
NAMES = {
    "DependsOn": "Depends on", "DependedOnBy": "Depended on by", "MemberOf": "Member of",
    "HasMember": "Has members", "RefersTo": "Refers to", "ReferredToBy": "Referred to by"}


def page(desk, at, caller, name, *words):
    """The code of a page and its facts, or those of a refusal."""
    try:
        refuse_if("UnknownCaller", caller not in desk.settings.persons)
        return 200, {"home": home, "queue": queue, "find": find, "request": request, "late": late,
                     "workload": workload, "new": new}[name](desk, at, caller, *words)
    except Refused as refusal:
        return code_of(refusal), {"refused": refusal_text(refusal), "back": "/"}


def code_of(refusal):
    """The code of HTTP for a refusal, by docs/http.md."""
    if refusal.number in (2, 3, 5, 14):
        return 400
    return {1: 403, 6: 403, 4: 404}.get(refusal.number, 409)


def refusal_text(refusal):
    right = f" {refusal.right}" if refusal.right else ""
    return f"refused {refusal.number} {refusal.name}{right}"


def of_another(caller, person):
    """What comes of a form that stood on another person's page: nothing is done, and this is said."""
    return 409, f"You are signed in as {caller} now. This form was {person}’s: nothing was sent."


def of_who_signed_in(caller):
    """What is said of a form that nobody sent, to who signed in then. Nothing is done."""
    return f"You are signed in as {caller}, but nothing was sent yet. Look at what you typed, and press the button."


# ---- lists

def time_text(moment):
    return DASH if moment is None else moment_text(moment)


def is_late(due, at):
    return due is not None and due < at


def late_text(due, at):
    """For how long it has been late, if it is."""
    return span_text(at - due) if is_late(due, at) else ""


def row(it, caller, at):
    one = it.request
    return [one.number, one.subject, sorted(one.roles["requestor"]), one.queue.name, one.status, waits_for(one),
            owner_text(one.owner), time_text(it.due), late_text(it.due, at), moment_text(it.last),
            whose(one.owner, caller)]


def waits_for(one):
    if one.is_inactive():
        return DASH
    return "the desk" if one.is_desks_turn else "who asked"


def whose(owner, caller):
    return "nobody" if owner is None else "mine" if owner == caller else ""


def section(desk, at, caller, **fields):
    all_of = found(desk, caller, at, ANY._replace(state="open", order="due", **fields))
    return [len(all_of), [row(it, caller, at) for it in all_of[:FIRST_ROWS]]]


def home(desk, at, caller):
    seen = [it for it in sorted(desk.by_name.values(), key=lambda it: it.name)
            if desk.sees_queue(caller, it)]
    live = found(desk, caller, at, ANY._replace(state="open"))
    return {
        "own": section(desk, at, caller, owner="Me"),
        "asked": section(desk, at, caller, requestor="Me"),
        "free": section(desk, at, caller, owner="Nobody"),
        "queues": [[it.name, *counts(live, it, at), it.level or DASH] for it in seen],
        "lifecycles": sorted(desk.settings.lifecycles), "levels": sorted(desk.settings.levels)}


def counts(live, of, at):
    """How many of a queue are open, and how many of them late."""
    dues = [it.due for it in live if it.request.queue is of]
    return len(dues), sum(is_late(due, at) for due in dues)


def find(desk, at, caller, search, first=0):
    """A page of a search, from so many that were found on."""
    all_of = found(desk, caller, at, search)
    return {"count": len(all_of), "rows": [row(it, caller, at) for it in all_of[first:first + ROWS]],
            "later": len(all_of) > first + ROWS}


def queue(desk, at, caller, name):
    return find(desk, at, caller, ANY._replace(queue=name, state="open"))


def late(desk, at, caller):
    """The search for it, the most overdue first."""
    return find(desk, at, caller, ANY._replace(late=True, order="due"))


def span_text(minutes):
    if minutes >= DAY:
        return f"{minutes // DAY} d {minutes % DAY // 60} h"
    return f"{minutes // 60} h {minutes % 60} min" if minutes >= 60 else f"{minutes} min"


def workload(desk, at, caller):
    loads = desk.ask(at, caller, "workload", [])
    return {"rows": [[owner_text(it.owner), it.live, it.overdue, whose(it.owner, caller)] for it in loads],
            "total": [sum(it.live for it in loads), sum(it.overdue for it in loads)]}


def new(desk, _at, caller, name):
    """The form for a new request. Where the caller doesn't see the queue, no status is offered."""
    of = desk.by_name.get(name)
    cycle = of.lifecycle if of and desk.sees_queue(caller, of) else None
    return {"statuses": cycle.create if cycle else [], "usual": cycle.on_create if cycle else None}


# ---- a request

def request(desk, at, caller, number):
    shown = desk.ask(at, caller, "show", [number])
    one = shown.request
    is_requestor = caller in one.roles["requestor"]
    replies = desk.has_on(caller, "ReplyToTicket", one)
    return {
        "subject": one.subject, "queue": one.queue.name, "facts": facts(desk, at, shown),
        "history": [entry(it) for it in told(desk, caller, one)],
        "writes": [it for it, right in WRITES if desk.has_on(caller, right, one)],
        "closing": closing(one, desk.reopened(one, False)) if replies and not is_requestor else None,
        "crosses": crosses(desk, caller, shown), "change": change(desk, caller, one, is_requestor)}


WRITES = [("reply", "ReplyToTicket"), ("comment", "CommentOnTicket")]


def crosses(desk, caller, shown):
    """Whether a person can be taken out, and a link away, by a cross: by the right to change the request."""
    one = shown.request
    may = desk.has_on(caller, "ModifyTicket", one)
    return [may and any(one.roles.values()), may and bool(shown.linked or shown.linking)]


def change(desk, caller, one, is_requestor):
    """What of the request the caller may change, or None where it is nothing."""
    offers, owns = moves(desk, caller, one), owner_form(desk, caller, one)
    modifies = desk.has_on(caller, "ModifyTicket", one)
    sets = modifies or desk.has_on(caller, "Watch", one)
    gives = one.owner == caller or desk.has_on(caller, "ReassignTicket", one)
    if not (offers or owns or gives or sets):
        return None
    return {
        "moves": offers, "owner": owns, "give": gives, "watch": sets, "link": modifies,
        "unfolded": not is_requestor, "owners": owners(desk, caller, one), "people": people(one, caller),
        "levels": sorted(desk.settings.levels) if modifies else [], "level": one.level if modifies else None}


def facts(desk, at, shown):
    """Each fact by its heading."""
    one = shown.request
    level = desk.settings.levels.get(one.level)
    told_of = {"Status": one.status, "Owner": owner_text(one.owner),
               "Due": dated(shown.due, level) + (" late" if is_late(shown.due, at) else ""),
               "Level": one.level or DASH, "Filed": dated(one.created, level),
               "Requestors": sorted(one.roles["requestor"])}
    for heading, role in (("Cc", "cc"), ("AdminCc", "admincc")):
        told_of[heading] = sorted(one.roles[role])
    for kind, inverse in INVERSES:
        told_of[NAMES[kind]] = linked(desk, (it.target for it in shown.linked if it.kind == kind))
        told_of[NAMES[inverse]] = linked(desk, (it.source for it in shown.linking if it.kind == kind))
    return {heading: value for heading, value in told_of.items() if value or heading == "Requestors"}


def linked(desk, numbers):
    """The requests that one is linked with: their numbers, subjects and statuses."""
    return [[it, desk.requests[it - 1].subject, desk.requests[it - 1].status] for it in sorted(numbers)]


def dated(moment, level):
    """A moment, with local time beside it where there is a level."""
    local = level.calendar.local(moment) if level and moment is not None else None
    return time_text(moment) + (f" {moment_text(local)} local" if local is not None else "")


TELLING = {
    "create": "filed it as {1}", "status": "moved it from {0} to {1}",
    "owner": "changed the owner from {0} to {1}", "level": "changed the level from {0} to {1}",
    "reply": "replied", "comment": "commented", "watch": "put {1} into {0}",
    "unwatch": "took {1} out of {0}", "link": "linked it: {0} {1}", "unlink": "unlinked it: {0} {1}"}


def entry(it):
    is_text = it.kind in ("reply", "comment")
    return [it.number, it.actor, TELLING[it.kind].format(it.head, it.body), moment_text(it.moment),
            it.body if is_text else None]


def moves(desk, caller, one):
    """The statuses to which the caller may move it, in the order of the lifecycle."""
    cycle = one.queue.lifecycle
    return [it for it in cycle.statuses if (one.status, it) in cycle.moves
            and desk.has_on(caller, cycle.right_of(one.status, it), one)]


def closing(one, reopened):
    """The first inactive status, if the lifecycle moves there after a reply, which may have moved it."""
    cycle = one.queue.lifecycle
    first = cycle.inactive[:1]
    return first[0] if first and (reopened or one.status, first[0]) in cycle.moves else None


def owner_form(desk, caller, one):
    """The form for its owner that makes sense, where the caller may send it."""
    if one.owner == caller:
        return "untake"
    name, right = ("take", "TakeTicket") if one.owner is None else ("steal", "StealTicket")
    return name if all(desk.has_on(caller, it, one) for it in (right, "OwnTicket")) else None


def owners(desk, caller, one):
    """The names that are suggested for its next owner, to whoever may own it."""
    if not desk.has_on(caller, "OwnTicket", one):
        return []
    able = [it for it in desk.settings.persons if desk.has_on(it, "OwnTicket", one)]
    return sorted(able) if len(able) <= SUGGESTED else None


def people(one, caller):
    return sorted(set().union(*one.roles.values()) | {one.owner or caller, caller})
