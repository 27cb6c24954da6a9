"""What the commands of an ask do to a desk of the model."""
from rules import MAX_TEXT, TEXT, Call, Refused, is_of_form, refuse_if

from office.asks import first_text, words_of


def do(desk, ask, name, words):
    """What one command of an ask is answered. A request is filed with its first text at once."""
    return file(desk, ask) if name == "create" else desk.ask(ask.at, ask.by, name, words)


def file(desk, ask):
    """The number of the request that a form files, whose second entry is its text: it moves nothing, passes no
    turn and needs no right."""
    number, text = desk.ask(ask.at, ask.by, "create", words_of(ask)), first_text(ask)
    try:
        refuse_if("BadText", text is not None and not is_of_form(TEXT, text, MAX_TEXT))
        refuse_if("Full", text is not None and desk.settings.max_entries < 2)
    except Refused:
        desk.requests.pop()
        raise
    if text is not None:
        desk.note(Call(ask.at, ask.by), desk.requests[-1], "reply", "", text)
    return number
