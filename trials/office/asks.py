"""What one person asks of the desk, and how it is said in each way in: words for `desk` and `desk_ask`,
a line for `desk_load`, a message of the interface, a form of a page."""
import json
import urllib.parse
from dataclasses import asdict, dataclass, field

ACTS = {"status": ("status", ["status"]), "take": ("take", []), "steal": ("steal", []),
        "untake": ("untake", []), "give": ("give", ["person"]), "correspond": ("reply", ["text"]),
        "comment": ("comment", ["text"]), "watch": ("watch", ["role", "person"]),
        "unwatch": ("unwatch", ["role", "person"]), "link": ("link", ["kind", "other"]),
        "unlink": ("unlink", ["kind", "other"]), "level": ("level", ["level"])}
READINGS = {"queues", "show", "ls", "history", "overdue", "workload", "find"}
# the page on which a reading stands, in a browser
PAGES = {"queues": "home", "ls": "queue", "show": "request", "history": "request", "overdue": "late",
         "workload": "workload", "find": "find"}


@dataclass
class Ask:
    """A command or a reading: when, in which way, by whom, its name and its words. A number of a request
    is that of the plan, and so is `key`, of one that it files. `then` is the second command of a form: a
    first text, or a status. `seen` is the last entry that was told to who sends a reply by a form."""
    at: int
    way: str
    by: str
    name: str
    words: list = field(default_factory=list)
    then: str | None = None
    key: int | None = None
    seen: int = 0

    @classmethod
    def of(cls, table):
        return cls(**table)

    def table(self):
        return asdict(self)

    @property
    def reads(self):
        return self.name in READINGS

    def request(self):
        """The number of the request that it names first, or None."""
        names_one = self.name in ACTS or self.name in ("show", "history")
        return self.words[0] if names_one and type(self.words[0]) is int else None


def numbered(ask, numbers):
    """The same with the numbers that the desk gave, by the plan's. What was never filed isn't there."""
    words = [numbers.get(it, 4_000_000 + it) if type(it) is int else it for it in ask.words]
    return Ask(ask.at, ask.way, ask.by, ask.name, words, ask.then, ask.key)


def apart(asks):
    """Those that change no request that one before them changes. A filing that was pressed twice has one number,
    and the plan has two."""
    changed = set()
    for ask in asks:
        number = None if ask.reads else ask.request()
        if number not in changed:
            yield ask
        if number is not None:
            changed.add(number)


def commands(ask):
    """The commands that it makes of the desk, in their order."""
    yield ask.name, words_of(ask)
    if ask.then and ask.name == "correspond":
        yield "status", [ask.words[0], ask.then]


def first_text(ask):
    """The text with which a form files a request, or None where it is blank."""
    has_one = ask.then is not None and ask.name == "create" and ask.then.strip(" \t\r\n")
    return ask.then.replace("\r\n", "\n") if has_one else None


def words_of(ask):
    """What the command names, as the desk is given it: lines of a form end in line feeds."""
    words = list(ask.words)
    if ask.way == "page":
        words = [fed(it) if isinstance(it, str) else it for it in words]
        if ask.name == "create":
            words[3] = [it for it in " ".join(words[3]).split(" ") if it]
    return words


def fed(text):
    return text.replace("\r\n", "\n")


# ---- words and lines

def spelled(ask):
    """The words of the command line, with an end of options before what could be taken for one."""
    name, words = ask.name, ask.words
    if name == "create":
        queue, subject, status, requestors = words
        options = [] if status is None else [f"--status={status}"]
        return ["create", *options, "--", queue, subject, *requestors]
    plain = [str(it) for it in words if it is not None]
    if name == "unlink":
        return ["link", "-d", "--", *plain]
    return [name, "--", *plain] if plain else [name]


def line(ask):
    """A line for `desk_load`."""
    return " ".join([str(ask.at), quoted(ask.by), *map(quoted, spelled(ask))]) + "\n"


def quoted(word):
    for plain, escape in (("\\", "\\\\"), ('"', '\\"'), ("\n", "\\n"), ("\t", "\\t")):
        word = word.replace(plain, escape)
    return f'"{word}"'


# ---- messages

def message(ask):
    """The method, the path and the body of the message to the interface. Nothing is decoded of a path, so what
    can't stand in it is no name there either."""
    name, words = ask.name, ask.words
    first = urllib.parse.quote(str(words[0]), safe="") if words else None
    if name == "queues":
        return "GET", "/queues", None
    if name in ("overdue", "workload"):
        return "GET", f"/{name}", None
    if name == "queue":
        keys = zip(("queue", "lifecycle", "level"), [*words, None])
        return "POST", "/queues", body(dict(keys))
    if name == "ls":
        return "GET", f"/queues/{first}/requests", None
    if name == "create":
        return "POST", f"/queues/{first}/requests", body(
            {"subject": words[1], "status": words[2], "requestors": words[3]})
    if name in ("show", "history"):
        return "GET", f"/requests/{first}" + ("/history" if name == "history" else ""), None
    act, keys = ACTS[name]
    values = dict(zip(keys, words[1:] + [None]))
    return "POST", f"/requests/{first}/{act}", body(values)


def body(values):
    """As JSON in UTF-8: with escapes the longest text would be too long for a message."""
    return json.dumps(values, ensure_ascii=False)


# ---- forms

def form(ask):
    """The path of a form, and the fields that a person fills in."""
    name, words = ask.name, ask.words
    if name == "queue":
        return "/desk/queues", {key: it or "" for key, it in zip(("queue", "lifecycle", "level"), [*words, ""])}
    if name == "create":
        fields = {"subject": words[1], "text": ask.then or "", "requestors": " ".join(words[3])}
        return f"/desk/queues/{words[0]}/new", {**fields, **({"status": words[2]} if words[2] else {})}
    act, keys = ACTS[name]
    fields = {key: "" if it is None else str(it) for key, it in zip(keys, words[1:] + [""])}
    if name == "correspond" and ask.then:
        fields["status"] = ask.then
    return f"/desk/requests/{words[0]}/{act}", fields


def form_page(ask):
    """The path of the page on which a form stands, the page's name, and what it is of."""
    if ask.name == "queue":
        return "/", "home", []
    if ask.name == "create":
        return f"/desk/queues/{ask.words[0]}/new", "new", [ask.words[0]]
    return f"/desk/requests/{ask.words[0]}", "request", [ask.words[0]]


def place(ask):
    """The path of the page on which a reading stands."""
    page = PAGES[ask.name]
    if page == "request":
        return f"/desk/requests/{ask.words[0]}"
    if page == "queue":
        return f"/desk/queues/{ask.words[0]}"
    return {"home": "/", "late": "/desk/overdue", "workload": "/desk/workload", "find": "/desk/find"}[page]
