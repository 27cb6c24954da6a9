"""The settings of an office, made from a seed, and how they change over a year: people come and go,
statuses are added, limits change. Names in the tables stay."""
import copy
import datetime
import random

NAMES = """ada amir anna arne astrid bela ben bob carla cid clara dan dora edda elsa emil eva fadi finn
    frida georg gita gus hanna hugo ida ilse ines ivan jan jana jonas julia kai karl kira lars lea leo
    lina ludo maja marc mila nadia nils nora olaf olga oskar otto paul petra pia rafi rita rosa ruth sami
    sara sofia sven tara theo timo tom uma urs vera veit vito walt wanda wim xenia yara yann zoe
    zita alma bodo cora dirk enno fee gero hedi irma jost""".split()
PEOPLE = 50
# one person in so many has another token after a night of changes, and so is signed out
TOKENS = 7
HELP = ["ShowTicket", "ShowTicketComments", "ModifyTicket", "ReplyToTicket", "CommentOnTicket",
        "OwnTicket", "TakeTicket", "StealTicket"]
# each queue with its lifecycle, its level and the group that works on it
QUEUES = {
    "support": ("default", "standard", "helpers-it"), "incidents": ("incident", "urgent", "helpers-it"),
    "house": ("default", "relaxed", "helpers-house"), "purchases": ("purchase", "slow", "buyers"),
    "personnel": ("default", "standard", "helpers-people"), "projects": ("incident", None, "leads")}
MEMBERS = {"leads": 4, "helpers-it": 8, "helpers-house": 5, "helpers-people": 4, "buyers": 4}
GROUPS = {"helpers": ["helpers-it", "helpers-house", "buyers"],
          "staff": ["helpers", "leads", "helpers-people"], "board": ["leads", "circle"], "circle": ["board"]}
SIGNS = "abcdefghijkmnpqrstuvwxyzABCDEFGHJKLMNPQRSTUVWXYZ23456789-_"

INCIDENT = {
    "initial": ["reported"], "active": ["triage", "fixing", "watching"],
    "inactive": ["closed", "duplicate"], "create": ["reported", "triage"], "on_create": "reported",
    "transitions": {
        "reported": ["triage", "fixing", "duplicate", "closed"], "triage": ["fixing", "watching", "duplicate"],
        "fixing": ["watching", "closed", "triage"], "watching": ["closed", "fixing"], "closed": ["fixing"],
        "duplicate": ["triage", "reported"]},
    "rights": {"* -> closed": "CloseIncident", "watching -> *": "WatchIncident"}}
PURCHASE = {
    "initial": ["asked"], "active": ["approved", "ordered"], "inactive": ["delivered", "declined"],
    "create": ["asked"], "on_create": "asked",
    "transitions": {"asked": ["approved", "declined"], "approved": ["ordered", "declined"],
                    "ordered": ["delivered"], "declined": ["asked"], "delivered": ["ordered"]},
    "rights": {"asked -> approved": "ApprovePurchase", "* -> declined": "ApprovePurchase"}}
# what later settings add: a status, its lifecycle, from where it is reached and where it leads
ADDED = [("escalated", "incident", ["triage", "fixing"], ["fixing", "watching"]),
         ("returned", "purchase", ["ordered"], ["ordered"]), ("vendor", "incident", ["fixing"], ["fixing"])]
WEEK = ("mon", "tue", "wed", "thu", "fri")
HOLIDAYS = ["01-01", "01-06", "04-03", "04-06", "05-01", "05-14", "10-03", "12-24", "12-25", "12-31"]
# the clocks change on a Sunday in the small hours, when somebody watches over the machines
CHANGE = ["00:00-06:00"]
CALENDARS = {
    "north": {"years": [2025, 2028], "rule": "CET-1CEST,M3.5.0,M10.5.0/3",
              "holidays": [f"{year}-{day}" for year in (2026, 2027) for day in HOLIDAYS],
              **{day: ["08:00-12:00", "13:00-17:30"] for day in WEEK}, "sun": CHANGE},
    "south": {"years": [2025, 2028], "rule": "AEST-10AEDT,M10.1.0,M4.1.0/3",
              "holidays": ["2026-01-26", "2026-04-25", "2026-12-25"],
              **{day: ["07:00-19:00"] for day in WEEK}, "sat": ["09:00-12:00"], "sun": CHANGE}}


class Office:
    """The settings as data. `text` writes them, and `changed` makes those of a night."""

    def __init__(self, choose):
        names = choose.sample(NAMES, len(NAMES))
        self.spare, self.persons, self.added = names[PEOPLE:], names[:PEOPLE], 0
        self.tokens = {name: token(choose) for name in self.persons}
        self.admin, *others = self.persons
        self.groups = copy.deepcopy(GROUPS)
        for group, count in MEMBERS.items():
            self.groups[group], others = others[:count], others[count:]
        self.lifecycles = copy.deepcopy({"incident": INCIDENT, "purchase": PURCHASE})
        self.levels = levels(choose)

    def helpers(self, queue):
        """Who works on the requests of a queue."""
        return self.groups[QUEUES[queue][2]]

    def present(self):
        """Who can sign in."""
        return list(self.tokens)

    def changed(self, choose):
        """The office after a night: somebody left and somebody came, and the rules changed a little."""
        new = copy.deepcopy(self)
        new.leave(choose)
        new.come(choose)
        new.tokens[choose.choice(new.present())] = token(choose)
        new.tokens |= {name: token(random.Random(f"{name} {new.text()}")) for name in new.present()[::TOKENS]}
        new.levels = levels(choose)
        if new.added < len(ADDED):
            new.add_status(*ADDED[new.added])
            new.added += 1
        return new

    def leave(self, choose):
        groups = [it for it in MEMBERS if len(self.groups[it]) > 2]
        gone = choose.choice(self.groups[choose.choice(groups)])
        for members in self.groups.values():
            members[:] = [it for it in members if it != gone]
        del self.tokens[gone]

    def come(self, choose):
        came = self.spare.pop()
        self.persons.append(came)
        self.tokens[came] = token(choose)
        self.groups[choose.choice(list(MEMBERS))].append(came)

    def add_status(self, status, name, before, after):
        cycle = self.lifecycles[name]
        cycle["active"].append(status)
        for old in before:
            cycle["transitions"][old].append(status)
        cycle["transitions"][status] = list(after)

    def text(self):
        parts = ["max_requests = 100000\nmax_entries = 20\n", f"persons = {listed(self.persons)}\n"]
        parts += ["[groups]", *(f"{name} = {listed(it)}" for name, it in self.groups.items()), ""]
        parts += [grant(*it) for it in self.grants()]
        parts += ["[tokens]", *(f'{word} = "{name}"' for name, word in self.tokens.items()), ""]
        for kind, tables in (("lifecycle", self.lifecycles), ("calendar", CALENDARS), ("level", self.levels)):
            parts += [table(f"{kind}.{name}", it) for name, it in tables.items()]
        return "\n".join(parts)

    def grants(self):
        """Who may do what: to whom, the rights, and the queue where it is for one."""
        yield f"person:{self.admin}", ["SuperUser"], None
        for queue, (_, _, group) in QUEUES.items():
            yield f"group:{group}", HELP + ["SeeQueue"], queue
            yield "everyone" if queue != "projects" else "group:staff", ["CreateTicket"], queue
            if queue != "personnel":
                yield "everyone", ["SeeQueue"], queue
        yield "role:requestor", ["ShowTicket", "ReplyToTicket", "Watch"], None
        yield "role:cc", ["ShowTicket"], None
        yield "role:admincc", ["ShowTicket", "ShowTicketComments", "CommentOnTicket"], None
        yield "role:owner", ["ModifyTicket", "ReplyToTicket", "CommentOnTicket", "WatchIncident"], None
        yield "group:leads", ["ShowTicket", "ReassignTicket", "SeeQueue", "WatchAsAdminCc"], None
        yield "group:leads", ["DeleteTicket", "OwnTicket", "AdminQueue"], "support"
        yield "group:board", ["CloseIncident", "ShowTicketComments"], "incidents"
        yield "group:helpers-it", ["CloseIncident"], "incidents"
        yield "group:leads", ["CloseIncident"], "projects"
        yield "group:staff", ["ShowTicket", "CommentOnTicket", "Watch"], "projects"
        yield "group:circle", ["ApprovePurchase", "ShowTicket"], "purchases"


def token(choose):
    return "".join(choose.choice(SIGNS) for _ in range(choose.randint(16, 32)))


def levels(choose):
    """Limits by lot. Two levels count no minutes in some statuses, and one starts at once."""
    def business(least, most):
        return {"business_minutes": choose.randint(least, most)}

    def real(least, most):
        return {"real_minutes": choose.randint(least, most)}
    return {
        "standard": {"calendar": "north", "response": business(60, 480), "keep_in_loop": business(480, 1440),
                     "resolve": business(2400, 7200)},
        "urgent": {"calendar": "south", "start_immediately": True, "response": real(15, 90),
                   "keep_in_loop": real(120, 720), "resolve": business(600, 1800)},
        "relaxed": {"calendar": "north", "response": business(480, 1440), "resolve": business(4800, 14400),
                    "ignore": ["stalled"]},
        "slow": {"calendar": "south", "keep_in_loop": business(1000, 4000), "resolve": business(5000, 20000),
                 "ignore": ["ordered", "asked"]},
        "bare": {"calendar": "default", "resolve": real(5000, 40000)}}


# ---- as TOML

def listed(words):
    return "[" + ", ".join(f'"{it}"' for it in words) + "]"


def grant(to, rights, queue):
    lines = ["[[grant]]", f'to = "{to}"', f"rights = {listed(rights)}"]
    return "\n".join([*lines, f'queue = "{queue}"', ""] if queue else [*lines, ""])


def table(name, values):
    plain = [f"{key} = {value_text(it)}" for key, it in values.items() if key not in ("transitions", "rights")]
    text = "\n".join([f"[{name}]", *plain, ""])
    for key in ("transitions", "rights"):
        if key in values:
            inner = [f'"{word}" = {value_text(it)}' for word, it in values[key].items()]
            text += "\n".join([f"\n[{name}.{key}]", *inner, ""])
    return text


def value_text(value):
    if isinstance(value, bool):
        return str(value).lower()
    if isinstance(value, dict):
        return "{ " + ", ".join(f"{key} = {it}" for key, it in value.items()) + " }"
    if isinstance(value, str):
        return f'"{value}"'
    return "[" + ", ".join(map(value_text, value)) + "]" if isinstance(value, list) else str(value)


# ---- days

def minute(year, month, day, hours=0, minutes=0):
    moment = datetime.datetime(year, month, day, hours, minutes, tzinfo=datetime.timezone.utc)
    return int(moment.timestamp()) // 60


def working_days(first, count):
    """So many days on which the office works, from a date on."""
    day, days = first, []
    while len(days) < count:
        if day.weekday() < 5 and day.strftime("%m-%d") not in HOLIDAYS:
            days.append(day)
        day += datetime.timedelta(days=1)
    return days
