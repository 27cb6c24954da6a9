"""The rules of the desk once more: who is refused what, what changes, and what readings tell. They
are written from docs/desk.md and docs/settings.md, and not from the crates.

In each command the lines `refuse_if` and `self.need_..` are its conditions in their order. They
stand after all that they look at, so that one may be left out, or two may change places, and what
is left is a rule too: models/wrong does so."""
import re
from collections import namedtuple

from hours import END, START
from settings import Lifecycle

REFUSALS = [
    "UnknownCaller", "BadMoment", "BadText", "NotFound", "UnknownName", "Denied", "NoChange",
    "NoTransition", "OpenDependency", "Owned", "NotOwned", "NotOwner", "Exists", "SelfLink", "Full"]

# The words of each command after its name: `?` may be left out, `*` may come any number of times.
FORMS = {
    "queue": "name name name?", "create": "name name name*", "status": "id name",
    "resolve": "id", "take": "id", "steal": "id", "untake": "id", "give": "id name",
    "correspond": "id name", "comment": "id name", "watch": "id role name",
    "unwatch": "id role name", "link": "id kind id", "level": "id name?", "queues": "",
    "show": "id", "ls": "name", "history": "id", "overdue": "", "workload": ""}

MAX_QUEUES, MAX_SUBJECT, MAX_TEXT = 1000, 200, 20000
NAME = re.compile(r"[a-z][a-z0-9_-]{0,19}")
SUBJECT = re.compile(r"[^\0-\x1f\x7f]+")
TEXT = re.compile(r"[^\0-\x08\x0b-\x1f\x7f]+")

Call = namedtuple("Call", "at caller")
Entry = namedtuple("Entry", "number moment actor kind head body")
Link = namedtuple("Link", "source kind target")
Shown = namedtuple("Shown", "request due linked linking")
Line = namedtuple("Line", "request due")
Late = namedtuple("Late", "request due late")
Load = namedtuple("Load", "owner live overdue")


class Refused(Exception):
    """A refusal, by its name, with the right that is lacking."""

    def __init__(self, name, right=None):
        super().__init__(name)
        self.name, self.right = name, right

    @property
    def number(self):
        return REFUSALS.index(self.name) + 1


def refuse_if(name, holds):
    if holds:
        raise Refused(name)


def is_of_form(form, text, most):
    return len(text) <= most and form.fullmatch(text) is not None


class Queue:
    def __init__(self, name, lifecycle, level):
        self.name, self.lifecycle, self.level = name, lifecycle, level


class Request:
    def __init__(self, number, queue, subject, status, at):
        self.number, self.queue, self.subject, self.status = number, queue, subject, status
        self.owner, self.level = None, queue.level
        self.created = self.opened = self.since = at
        self.is_desks_turn = True
        self.roles = {"requestor": set(), "cc": set(), "admincc": set()}
        self.entries = []

    def roles_of(self, person):
        """The roles of a person on the request."""
        roles = {role for role, persons in self.roles.items() if person in persons}
        return roles | {"owner"} if self.owner == person else roles

    def is_inactive(self):
        return self.status in self.queue.lifecycle.inactive

    def stays(self):
        """The stays in statuses, each with its begin and its end, which is END for the last."""
        begun = [it for it in self.entries if it.kind in ("create", "status")]
        ends = [it.moment for it in begun[1:]] + [END]
        return [(it.body, it.moment, end) for it, end in zip(begun, ends)]


# What is looked at where no queue or request of a name or number is there.
NO_QUEUE = Queue("", Lifecycle("", {}), None)


def no_request():
    return Request(0, NO_QUEUE, "", "", START)


class Desk:
    def __init__(self, settings):
        self.settings = settings
        self.by_name, self.requests, self.links = {}, [], set()

    def ask(self, at, caller, name, words):
        """What a command is answered, or raises its refusal. The words are what it names."""
        refuse_if("UnknownCaller", caller not in self.settings.persons)
        refuse_if("BadMoment", not START <= at < END)
        return getattr(self, name)(Call(at, caller), *words)

    # What commands look at.

    def queue_of(self, name):
        return self.by_name.get(name, NO_QUEUE)

    def request_of(self, number):
        return self.requests[number - 1] if 1 <= number <= len(self.requests) else no_request()

    def has_on(self, person, right, request):
        """Whether a person holds a right on a request, with the roles on it."""
        return self.settings.holds(person, right, request.queue.name, request.roles_of(person))

    def may_show(self, caller, request):
        return request.number > 0 and self.has_on(caller, "ShowTicket", request)

    def sees_queue(self, caller, queue):
        return self.settings.holds(caller, "SeeQueue", queue.name)

    def knows_level(self, level):
        return level is None or level in self.settings.levels

    def waits(self, request):
        """Whether a request depends on one that isn't inactive."""
        return any(not self.request_of(link.target).is_inactive() for link in self.links
                   if link.source == request.number and link.kind == "DependsOn")

    def due(self, request):
        """When a request is due, or None."""
        level = self.settings.levels.get(request.level)
        if level is None or request.is_inactive():
            return None
        turn = "response" if request.is_desks_turn else "keep_in_loop"
        stays = request.stays()
        dues = [level.due("resolve", request.opened, stays), level.due(turn, request.since, stays)]
        return min((due for due in dues if due is not None), default=None)

    # Conditions.

    def need_shown(self, call, request):
        refuse_if("NotFound", not self.may_show(call.caller, request))

    def need_right(self, person, right, request):
        if not self.has_on(person, right, request):
            raise Refused("Denied", right)

    def need_right_on_queue(self, caller, right, name):
        if not self.settings.holds(caller, right, name):
            raise Refused("Denied", right)

    def need_right_to_watch(self, call, request, role, person):
        """A caller who names himself needs the right to watch, or else that to modify."""
        right = "WatchAsAdminCc" if role == "admincc" else "Watch"
        if person != call.caller or not self.has_on(person, right, request):
            self.need_right(call.caller, "ModifyTicket", request)

    def need_room(self, request, count=1):
        refuse_if("Full", len(request.entries) + count > self.settings.max_entries)

    # Changes.

    def note(self, call, request, kind, head, body):
        """Adds an entry to the history of a request."""
        number = len(request.entries) + 1
        request.entries.append(Entry(number, call.at, call.caller, kind, head, body))

    def own(self, call, request, owner):
        self.note(call, request, "owner", request.owner or "Nobody", owner or "Nobody")
        request.owner = owner

    def move(self, call, request, status):
        """Moves a request to a status. Out of the inactive ones, that opens it anew."""
        self.note(call, request, "status", request.status, status)
        was_inactive = request.is_inactive()
        request.status = status
        if was_inactive and not request.is_inactive():
            request.opened = request.since = call.at

    def pass_turn(self, call, request, by_requestor):
        """Whose turn it is after a reply, and since when."""
        if not by_requestor:
            request.is_desks_turn, request.since = False, call.at
        elif not request.is_desks_turn:
            request.is_desks_turn, request.since = True, call.at

    # Commands.

    def queue(self, call, name, lifecycle, level=None):
        cycle = self.settings.lifecycles.get(lifecycle)
        refuse_if("BadText", NAME.fullmatch(name) is None)
        refuse_if("UnknownName", cycle is None or not self.knows_level(level))
        self.need_right_on_queue(call.caller, "AdminQueue", name)
        refuse_if("Exists", name in self.by_name)
        refuse_if("Full", len(self.by_name) >= MAX_QUEUES)
        self.by_name[name] = Queue(name, cycle or NO_QUEUE.lifecycle, level)

    def create(self, call, name, subject, status=None, requestors=()):
        queue = self.queue_of(name)
        cycle = queue.lifecycle
        begins = cycle.on_create if status is None else status
        strangers = set(requestors) - self.settings.persons
        refuse_if("BadText", not is_of_form(SUBJECT, subject, MAX_SUBJECT))
        refuse_if("NotFound", name not in self.by_name)
        refuse_if("UnknownName", begins not in cycle.statuses or strangers)
        self.need_right_on_queue(call.caller, "CreateTicket", name)
        refuse_if("NoTransition", begins not in cycle.create)
        refuse_if("Full", len(self.requests) >= self.settings.max_requests)
        request = Request(len(self.requests) + 1, queue, subject, begins, call.at)
        request.roles["requestor"].update(requestors or [call.caller])
        self.note(call, request, "create", "", begins)
        self.requests.append(request)
        return request.number

    def status(self, call, number, status):
        request = self.request_of(number)
        cycle = request.queue.lifecycle
        self.need_shown(call, request)
        refuse_if("UnknownName", status not in cycle.statuses)
        self.need_right(call.caller, cycle.right_of(request.status, status), request)
        refuse_if("NoChange", status == request.status)
        refuse_if("NoTransition", (request.status, status) not in cycle.moves)
        refuse_if("OpenDependency", status in cycle.inactive and self.waits(request))
        self.need_room(request)
        self.move(call, request, status)

    def take(self, call, number):
        request = self.request_of(number)
        self.need_shown(call, request)
        self.need_right(call.caller, "TakeTicket", request)
        self.need_right(call.caller, "OwnTicket", request)
        refuse_if("NoChange", request.owner == call.caller)
        refuse_if("Owned", request.owner not in (None, call.caller))
        self.need_room(request)
        self.own(call, request, call.caller)

    def steal(self, call, number):
        request = self.request_of(number)
        self.need_shown(call, request)
        self.need_right(call.caller, "StealTicket", request)
        self.need_right(call.caller, "OwnTicket", request)
        refuse_if("NoChange", request.owner == call.caller)
        refuse_if("NotOwned", request.owner is None)
        self.need_room(request)
        self.own(call, request, call.caller)

    def untake(self, call, number):
        request = self.request_of(number)
        self.need_shown(call, request)
        refuse_if("NotOwned", request.owner is None)
        refuse_if("NotOwner", request.owner not in (None, call.caller))
        self.need_room(request)
        self.own(call, request, None)

    def give(self, call, number, person):
        request = self.request_of(number)
        self.need_shown(call, request)
        refuse_if("UnknownName", person not in self.settings.persons)
        self.need_right_to_give(call, request)
        self.need_right(person, "OwnTicket", request)
        refuse_if("NoChange", request.owner == person)
        self.need_room(request)
        self.own(call, request, person)

    def need_right_to_give(self, call, request):
        if request.owner != call.caller:
            self.need_right(call.caller, "ReassignTicket", request)

    def correspond(self, call, number, text):
        request = self.request_of(number)
        by_requestor = call.caller in request.roles["requestor"]
        reopened = self.reopened(request, by_requestor)
        refuse_if("BadText", not is_of_form(TEXT, text, MAX_TEXT))
        self.need_shown(call, request)
        self.need_right(call.caller, "ReplyToTicket", request)
        self.need_room(request, 1 if reopened is None else 2)
        self.note(call, request, "reply", "", text)
        if reopened is not None:
            self.move(call, request, reopened)
        self.pass_turn(call, request, by_requestor)

    def reopened(self, request, by_requestor):
        """The status to which a reply moves a request, or None where it stays."""
        cycle = request.queue.lifecycle
        is_moved = request.is_inactive() or request.status in cycle.initial and not by_requestor
        return cycle.reopening_of(request.status) if is_moved else None

    def comment(self, call, number, text):
        request = self.request_of(number)
        refuse_if("BadText", not is_of_form(TEXT, text, MAX_TEXT))
        self.need_shown(call, request)
        self.need_right(call.caller, "CommentOnTicket", request)
        self.need_room(request)
        self.note(call, request, "comment", "", text)

    def watch(self, call, number, role, person):
        request = self.request_of(number)
        self.need_shown(call, request)
        refuse_if("UnknownName", person not in self.settings.persons)
        self.need_right_to_watch(call, request, role, person)
        refuse_if("NoChange", person in request.roles[role])
        self.need_room(request)
        self.note(call, request, "watch", role, person)
        request.roles[role].add(person)

    def unwatch(self, call, number, role, person):
        request = self.request_of(number)
        self.need_shown(call, request)
        refuse_if("UnknownName", person not in self.settings.persons)
        self.need_right_to_watch(call, request, role, person)
        refuse_if("NoChange", person not in request.roles[role])
        self.need_room(request)
        self.note(call, request, "unwatch", role, person)
        request.roles[role].discard(person)

    def link(self, call, number, kind, other):
        request, end = self.request_of(number), self.request_of(other)
        self.need_shown(call, request)
        self.need_shown(call, end)
        self.need_right(call.caller, "ModifyTicket", request)
        refuse_if("NoChange", (number, kind, other) in self.links)
        refuse_if("SelfLink", number == other)
        self.need_room(request)
        self.note(call, request, "link", kind, str(other))
        self.links.add(Link(number, kind, other))

    def unlink(self, call, number, kind, other):
        request, end = self.request_of(number), self.request_of(other)
        self.need_shown(call, request)
        self.need_shown(call, end)
        self.need_right(call.caller, "ModifyTicket", request)
        refuse_if("NoChange", (number, kind, other) not in self.links)
        self.need_room(request)
        self.note(call, request, "unlink", kind, str(other))
        self.links.discard((number, kind, other))

    def level(self, call, number, level=None):
        request = self.request_of(number)
        self.need_shown(call, request)
        refuse_if("UnknownName", not self.knows_level(level))
        self.need_right(call.caller, "ModifyTicket", request)
        refuse_if("NoChange", request.level == level)
        self.need_room(request)
        self.note(call, request, "level", request.level or "-", level or "-")
        request.level = level

    # Readings.

    def queues(self, call):
        seen = [it for it in self.by_name.values() if self.sees_queue(call.caller, it)]
        return sorted(seen, key=lambda it: it.name)

    def show(self, call, number):
        request = self.request_of(number)
        self.need_shown(call, request)
        linked = [link for link in self.links if link.source == number
                  and self.may_show(call.caller, self.request_of(link.target))]
        linking = [link for link in self.links if link.target == number
                   and self.may_show(call.caller, self.request_of(link.source))]
        return Shown(request, self.due(request), linked, linking)

    def ls(self, call, name):
        queue = self.queue_of(name)
        refuse_if("NotFound", name not in self.by_name or not self.sees_queue(call.caller, queue))
        return [Line(it, self.due(it)) for it in self.shown_to(call) if it.queue is queue]

    def shown_to(self, call):
        return [it for it in self.requests if self.may_show(call.caller, it)]

    def history(self, call, number):
        request = self.request_of(number)
        self.need_shown(call, request)
        sees_comments = self.has_on(call.caller, "ShowTicketComments", request)
        return [it for it in request.entries if it.kind != "comment" or sees_comments]

    def is_late(self, call, due):
        return due is not None and due < call.at

    def overdue(self, call):
        dated = [Line(it, self.due(it)) for it in self.shown_to(call)]
        late = [it for it in dated if self.is_late(call, it.due)]
        return [Late(*it, call.at - it.due)
                for it in sorted(late, key=lambda it: (it.due, it.request.number))]

    def workload(self, call):
        live = [it for it in self.shown_to(call) if not it.is_inactive()]
        late = [it for it in live if self.is_late(call, self.due(it))]
        owners = sorted({it.owner for it in live}, key=owner_order)
        return [Load(owner, count_of(live, owner), count_of(late, owner)) for owner in owners]

    # What has to be known where tables are opened with settings.

    def is_known(self):
        """Whether the settings know every name that the desk has."""
        return (all(self.knows_queue(it) for it in self.by_name.values())
                and all(self.knows_request(it) for it in self.requests))

    def knows_queue(self, queue):
        return queue.lifecycle.name in self.settings.lifecycles and self.knows_level(queue.level)

    def knows_request(self, request):
        persons = set().union(*request.roles.values(), {it.actor for it in request.entries})
        persons |= {request.owner} - {None}
        return (persons <= self.settings.persons and self.knows_level(request.level)
                and request.status in request.queue.lifecycle.statuses)


def count_of(requests, owner):
    return sum(it.owner == owner for it in requests)


def owner_order(owner):
    """Nobody first, and then the persons by their bytes."""
    return (owner is not None, (owner or "").encode())
