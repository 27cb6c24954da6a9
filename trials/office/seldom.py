"""What comes so seldom by lot that some days would have none of it, so that people do it each day by each way in: a
look by one who isn't told the comments, a move by the right of a role alone, and an empty text."""
import itertools

from office import texts
from office.asks import Ask

# the requests of late among which somebody chooses
OF_LATE = 300
# the place of the text among the words of a command
TEXTS = {"create": 1, "correspond": 1, "comment": 1}
UNTOLD, BY_ROLE, EMPTY = "a history without its comments", "a move by a role", "an empty text"


def is_untold(desk, by, request):
    """Whether a person may look at a request, but isn't told its comments."""
    return (any(it.kind == "comment" for it in request.entries) and desk.may_show(by, request)
            and not desk.has_on(by, "ShowTicketComments", request))


def by_right(request, old, new):
    """The right for a move of its lifecycle from one status to another, or None where it has no such move."""
    cycle = request.queue.lifecycle
    return cycle.right_of(old, new) if (old, new) in cycle.moves else None


def is_of_a_role(desk, by, request, right):
    """Whether a person has a right on a request, and would not without the roles on it."""
    return (right is not None and desk.has_on(by, right, request)
            and not desk.settings.holds(by, right, request.queue.name))


def is_by_role(desk, by, request, status):
    """Whether a person may make that move, by a right of a role alone."""
    return desk.may_show(by, request) and is_of_a_role(desk, by, request, by_right(request, request.status, status))


def leads_to_one(desk, by, request, status):
    """Whether a person may make that move, and one by a role alone after it."""
    right = by_right(request, request.status, status)
    return right is not None and desk.has_on(by, right, request) and any(
        is_of_a_role(desk, by, request, by_right(request, status, it)) for it in request.queue.lifecycle.statuses)


def by_lot(choose, desk):
    """The requests of late, in any order."""
    return choose.sample(desk.requests[-OF_LATE:], min(OF_LATE, len(desk.requests)))


def untold(choose, desk, people, at, way):
    """A look of the first kind, or None where no comments are hidden from anybody."""
    for request in by_lot(choose, desk):
        readers = [it for it in people if is_untold(desk, it, request)]
        if readers:
            return Ask(at, way, choose.choice(readers), "history", [request.number])
    return None


def by_role(choose, desk, people, at, way):
    """A move of the second kind by the owner of a request; else one that leads to such; or None."""
    owned = [it for it in by_lot(choose, desk) if it.owner in people]
    for request, status, is_wanted in itertools.chain(moves(owned, is_by_role), moves(owned, leads_to_one)):
        if is_wanted(desk, request.owner, request, status):
            return Ask(at, way, request.owner, "status", [request.number, status])
    return None


def moves(requests, is_wanted):
    return ((it, status, is_wanted) for it in requests for status in it.queue.lifecycle.statuses)


def empty(choose, at, way, by, queue, number):
    """A command with an empty text."""
    name = choose.choice(sorted(TEXTS))
    return Ask(at, way, by, name, [queue, "", None, []] if name == "create" else [number, ""])


def searched(choose, asked):
    """A search, by the same person, for what comments say."""
    words = {"words": choose.choice(texts.WORDS), "replies": "yes"}
    return Ask(asked.at, "page", asked.by, "find", [words])


def kind_of(desk, ask):
    """Which of them an ask is, before it is made; or None."""
    if ask.name in TEXTS and ask.words[TEXTS[ask.name]] == "":
        return EMPTY
    request = desk.request_of(ask.request() or 0)
    if ask.name == "status":
        return BY_ROLE if is_by_role(desk, ask.by, request, ask.words[1]) else None
    tells_history = ask.name == "history" or (ask.name, ask.way) == ("show", "page")
    return UNTOLD if tells_history and is_untold(desk, ask.by, request) else None
