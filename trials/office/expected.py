"""What each way in has to answer, by the model: codes, texts, statuses, facts of pages. Each function
makes the step on the model too."""
import answers
import pages
from finding import ANY
from rules import Refused

from office.asks import commands, first_text, words_of
from office.deeds import do, file
from office.hostile import is_search, unspelled

STATUSES = {"ok": 0, "refused": 1}


def by_words(desk, ask):
    """What `desk`, `desk_load` and `desk_ask` print, and their status. What `desk_ask` has to say of words that
    spell no command goes to the standard error."""
    if unspelled(ask):
        return {"shell": ("", 2), "file": ("bad words\n", 2), "load": ("bad words\n", 1)}[ask.way]
    text = answers.outcome_text(desk, ask.at, ask.by, ask.name, words_of(ask))
    return text, int(text.startswith("refused "))


def by_message(desk, ask):
    """The code and the body of the reply of the interface."""
    if unspelled(ask):
        return (404, "bad request 1 NoRoute\n") if unspelled(ask) == "number" else (400, "bad request 4 BadBody\n")
    try:
        answer = desk.ask(ask.at, ask.by, ask.name, words_of(ask))
    except Refused as refusal:
        return pages.code_of(refusal), pages.refusal_text(refusal) + "\n"
    text = "".join(f"{line}\n" for line in answers.lines_of(ask.name, answer))
    return 201 if ask.name == "create" else 200, text


def by_form(desk, ask):
    """The code of the reply to a form, and where it leads or what its page tells."""
    if unspelled(ask):
        return 400, {"refused": None, "back": f"/desk/requests/{ask.words[0]}"}
    done = False
    try:
        if was_sent(desk, ask):
            return 303, f"/desk/requests/{ask.words[0]}#reply"
        if (number := filed_already(desk, ask)) is not None:
            return 303, f"/desk/requests/{number}#reply"
        if is_overtaken(desk, ask):
            return 409, {"refused": None, "back": f"/desk/requests/{ask.words[0]}",
                         "typed": ask.words[1].replace("\r\n", "\n")}
        if ask.name == "create":
            return told_of_filing(desk, ask, file(desk, ask))
        for name, words in commands(ask):
            do(desk, ask, name, words)
            done = True
    except Refused as refusal:
        return pages.code_of(refusal), refusal_facts(ask, refusal, done)
    return 303, f"/desk/requests/{ask.words[0]}#reply" if ask.name != "queue" else "/"


def told_of_filing(desk, ask, number):
    """Where a filing leads, or what its filer is told who may not see it."""
    if desk.may_show(ask.by, desk.request_of(number)):
        return 303, f"/desk/requests/{number}#reply"
    return 200, {"filed": f"It is request {number}. You may not see it, so no more is told of it here.", "back": "/"}


def was_sent(desk, ask):
    """Whether a reply or a comment says what the same person said there in the last ten minutes, and the
    request has the status that was chosen: it isn't sent twice."""
    kind = {"correspond": "reply", "comment": "comment"}.get(ask.name)
    if kind is None:
        return False
    number, text = words_of(ask)
    try:
        told = desk.ask(ask.at, ask.by, "history", [number])
    except Refused:
        return False
    has_moved = not ask.then or desk.request_of(number).status == ask.then
    return has_moved and any((it.kind, it.actor, it.body) == (kind, ask.by, text) and ask.at - it.moment <= 10
                             for it in told)


def filed_already(desk, ask):
    """The number of the newest request that the same person filed like this one in the last ten minutes, and may
    see, if it is one of the last hundred: it isn't filed twice."""
    if ask.name != "create":
        return None
    queue, subject, _, requestors = words_of(ask)
    text = first_text(ask)
    for one in reversed(desk.requests[-100:]):
        is_same = (one.queue.name, one.subject, one.entries[0].actor) == (queue, subject, ask.by)
        persons = one.roles["requestor"]
        has_same = persons == set(requestors) if requestors else persons <= {ask.by}
        has_text = text is None or any((it.kind, it.actor, it.body) == ("reply", ask.by, text) for it in one.entries)
        if is_same and has_same and has_text and ask.at - one.created <= 10 and desk.may_show(ask.by, one):
            return one.number
    return None


def last_told(desk, ask):
    """The number of the last entry that is told of the request of a reply, or 0."""
    try:
        return desk.ask(ask.at, ask.by, "history", [ask.request() or 0])[-1].number
    except Refused:
        return 0


def is_overtaken(desk, ask):
    """Whether somebody else replied, moved the request or changed its owner behind the last entry that was told
    to who replies."""
    if ask.name != "correspond":
        return False
    try:
        told = desk.ask(ask.at, ask.by, "history", [ask.words[0]])
    except Refused:
        return False
    return any(it.number > ask.seen and it.actor != ask.by and it.kind in ("reply", "status", "owner") for it in told)


def refusal_facts(ask, refusal, is_half):
    """A form that had a text has it still, but where the text was sent and the move after it wasn't. The way
    back leads to what the form was on; to a queue only as far as the caller may know of it."""
    back = "/"
    if ask.name == "create":
        back = f"/desk/queues/{ask.words[0]}" if refusal.name != "NotFound" else "/"
    elif ask.name != "queue":
        back = f"/desk/requests/{ask.words[0]}"
    facts = {"refused": pages.refusal_text(refusal), "back": back}
    typed = {"create": ask.then or "", "correspond": ask.words[-1], "comment": ask.words[-1]}.get(ask.name)
    if typed is not None and not (is_half and ask.name == "correspond"):
        facts["typed"] = typed.replace("\r\n", "\n")
    return facts


def by_page(desk, ask, name, *words):
    """The code of a page and its facts. A search that no form sends finds nothing, whoever looks."""
    if name == "find":
        if not is_search(words[0]):
            return 400, {"no such search": True}
        words = [search_of(words[0])]
    return pages.page(desk, ask.at, ask.by, name, *words)


def search_of(fields):
    """The search for which the fields of an address ask."""
    plain = {"replies": "yes" == fields.get("replies"), "late": "yes" == fields.get("late"),
             "first": fields.get("from", ""), "last": fields.get("to", "")}
    rest = {name: fields[name] for name in ("words", "queue", "state", "status", "owner", "requestor", "turn", "order")
            if name in fields}
    return ANY._replace(**plain, **rest)
