"""Searches once more, by docs/pages.md: what a caller finds, in which order, and how many."""
from collections import namedtuple
from unicodedata import category, unidata_version

from hours import DAY, day_of

Search = namedtuple("Search", "words replies queue state status owner requestor turn late first last order")
ANY = Search("", False, "", "", "", "", "", "", False, "", "", "")
Found = namedtuple("Found", "request due last")


def found(desk, caller, at, search):
    """All that the caller may see and that meets the search, in its order."""
    met = [it for it in sights(desk, caller) if meets(desk, caller, at, search, it)]
    return sorted(met, key=lambda it: key_of(search.order, it), reverse=is_falling(search.order))


def sights(desk, caller):
    """The requests that the caller may see, each with its due moment and that of its last entry."""
    for request in desk.requests:
        if desk.may_show(caller, request):
            yield Found(request, desk.due(request), told(desk, caller, request)[-1].moment)


def told(desk, caller, request):
    """The entries of a request that the caller is told."""
    sees = desk.has_on(caller, "ShowTicketComments", request)
    return [it for it in request.entries if sees or it.kind != "comment"]


def meets(desk, caller, at, search, it):
    request = it.request
    return (search.queue in ("", request.queue.name)
            and has_status(search, request)
            and has_owner(search.owner, caller, request)
            and has_requestor(search.requestor, caller, request)
            and has_turn(search.turn, request)
            and (not search.late or it.due is not None and it.due < at)
            and is_filed(search, request.created)
            and has_words(desk, caller, search, request))


def has_status(search, request):
    if search.status:
        return request.status == search.status
    is_closed = request.is_inactive()
    return {"": True, "open": not is_closed, "closed": is_closed}[search.state]


def has_owner(asked, caller, request):
    if asked == "Nobody":
        return request.owner is None
    return asked == "" or request.owner == (caller if asked == "Me" else asked)


def has_turn(asked, request):
    """Whether it waits for the one who is asked for; what is closed waits for nobody."""
    waits_for = "desk" if request.is_desks_turn else "requestor"
    return asked == "" or not request.is_inactive() and asked == waits_for


def has_requestor(asked, caller, request):
    return asked == "" or (caller if asked == "Me" else asked) in request.roles["requestor"]


def is_filed(search, created):
    """Whether it was filed from the one day to the other, both among them, in UTC."""
    first, last = (day_of(*map(int, day.split("-"))) * DAY if day else None
                   for day in (search.first, search.last))
    return (first is None or first <= created) and (last is None or created < last + DAY)


def has_words(desk, caller, search, request):
    """Whether each word stands in the subject, or in a text that the caller is told."""
    words = [folded(word) for word in search.words.split(" ") if word]
    texts = [request.subject]
    if words and search.replies:
        texts += [it.body for it in told(desk, caller, request) if it.kind in ("reply", "comment")]
    texts = [folded(text) for text in texts]
    return all(any(word in text for text in texts) for word in words)


def folded(text):
    """The text by Unicode's default case folding, which is the same in each version for the
    characters that an older one has. What this Python doesn't know yet it can't judge."""
    for it in text:
        if category(it) == "Cn":
            raise ValueError(f"U+{ord(it):04X} is no character of Unicode {unidata_version}")
    return text.casefold()


def key_of(order, it):
    number = it.request.number
    if order in ("due", "due-last"):
        return (it.due is None, it.due or 0, number)
    return (it.last, number) if order in ("active", "quiet") else number


def is_falling(order):
    return order in ("", "newest", "due-last", "active")
