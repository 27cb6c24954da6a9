"""The steps of so many days of an office, made from a seed. A model of the plan's own says which requests
there are, so that people do what they would do. Steps name requests by the numbers of that model."""
import collections
import datetime
import functools
import random

import rules

from office import seldom, texts
from office.asks import Ask, commands
from office.deeds import do
from office.hostile import EACH, hostile, unspelled
from office.known import Desk, Known
from office.settle import refusal_of
from office.setup import QUEUES, Office, working_days

FIRST_DAY = datetime.date(2026, 3, 23)
ASKS_A_DAY, NIGHT_LINES, HOSTILE_A_DAY = 240, 14, 12
# among how many tries the one is chosen whose refusal was seen least
TRIES = 30
KINDS = ["DependsOn", "MemberOf", "RefersTo"]
ROLES = ["requestor", "cc", "admincc"]


class Plan:
    def __init__(self, seed, days, first=FIRST_DAY, asks=ASKS_A_DAY):
        self.choose, self.asks = random.Random(seed), asks
        self.office = Office(self.choose)
        self.desk = Desk(Known(self.office.text()))
        self.steps, self.live, self.closed, self.fields, self.refusals = [], [], [], [], collections.Counter()
        self.begin(working_days(first, days)[0])
        for number, day in enumerate(working_days(first, days)):
            self.day(number, day)
            self.night(number, day)

    # ---- the days

    def begin(self, day):
        at = moment_of(day, 6)
        self.add("settings", at, text=self.office.text())
        for name, (lifecycle, level, _) in QUEUES.items():
            self.ask(Ask(at, "http", self.office.admin, "queue", [name, lifecycle, level]))

    def day(self, number, day):
        moments = sorted(moment_of(day, 7) + int(self.choose.triangular(0, 660, 200)) for _ in range(self.asks))
        breaks = self.breaks(number, day)
        for at in moments:
            while breaks and breaks[0][0] <= at:
                breaks.pop(0)[1]()
            self.event(at)
        for _, broken in breaks:
            broken()

    def breaks(self, number, day):
        """What goes wrong on a day, with its moments in order."""
        of_week = day.weekday()
        choose = self.choose
        some = []

        def put(what, hour=None):
            at = moment_of(day, 7) + choose.randrange(660) if hour is None else moment_of(day, hour)
            some.append((at, lambda: what(at)))
        if of_week == 0:
            put(self.burst, 9)
        if of_week in (1, 4):
            put(self.copy)
        if of_week == 2:
            put(lambda at: self.add("end", at, how="stop"))
        if of_week == 3:
            put(self.full)
            put(lambda at: self.add("end", at, how="TERM"))
        for _ in range(2):
            put(self.kill)
            put(self.together)
            put(self.tabs)
            put(self.strange)
            put(self.strange)
        for _ in range(HOSTILE_A_DAY):
            put(self.field)
        for way in ("page", "http", "shell"):
            put(functools.partial(self.do_seldom, way))
        return sorted(some, key=lambda it: it[0])

    def night(self, number, day):
        at, lines = moment_of(day, 20), []
        for _ in range(NIGHT_LINES):
            at += self.choose.randrange(10)
            lines += self.played(self.some(at, "load"))
        for ask in [self.in_a_field(at, "load")[0], *self.seldom(at, "load")]:
            lines += self.played(ask)
        files = []
        for _ in range(2):
            files += self.played(self.some(at + 1, "file"))
        for ask in [self.in_a_field(at + 1, "file")[0], *self.seldom(at + 1, "file")]:
            files += self.played(ask)
        self.add("load", at, asks=[it.table() for it in lines], killed=self.choose.random() < 0.2)
        self.add("file", at + 1, asks=[it.table() for it in files])
        if number % 10 == 3:
            self.office = self.office.changed(self.choose)
            self.desk.with_settings(Known(self.office.text()))
            self.add("settings", at + 2, text=self.office.text())
        self.add("night", at + 3)

    # ---- steps

    def add(self, do, at, **more):
        self.steps.append({"do": do, "at": at, **more})

    def ask(self, ask):
        if ask is not None:
            self.play(ask)
            self.add("ask", ask.at, ask=ask.table())

    def played(self, ask):
        """The ask, where there is one, after the model made it."""
        self.play(ask)
        return [ask] if ask else []

    def play(self, ask):
        """What would come of it. A number that the model gives is the one that steps name."""
        if ask is None or ask.reads or unspelled(ask):
            return
        filed = len(self.desk.requests) + 1
        for name, words in commands(ask):
            try:
                do(self.desk, ask, name, words)
            except rules.Refused:
                return
            if name == "create":
                ask.key = filed
            self.sort(words[0] if type(words[0]) is int else filed)

    def sort(self, number):
        """Keeps which requests are open, and which are closed."""
        if not 1 <= number <= len(self.desk.requests):
            return
        closed = self.desk.requests[number - 1].is_inactive()
        for numbers, is_in in ((self.live, not closed), (self.closed, closed)):
            if is_in and number not in numbers:
                numbers.append(number)
            elif not is_in and number in numbers:
                numbers.remove(number)

    # ---- people

    def event(self, at):
        way = self.choose.choices(["page", "http", "shell"], [50, 30, 20])[0]
        self.ask(self.some(at, way))

    def some(self, at, way):
        """What somebody asks now, or None where there is nothing to do."""
        what = self.choose.choices(
            [self.file, self.take, self.answer, self.comment, self.move, self.resolve, self.hand, self.people,
             self.link, self.late_reply, self.look, self.trespass],
            [13, 12, 13, 5, 6, 17, 4, 5, 3, 8, 23, 6])[0]
        return what(at, way)

    def anyone(self):
        return self.choose.choice(self.office.present())

    def helper(self, queue):
        able = [it for it in self.office.helpers(queue) if it in self.office.tokens]
        return self.choose.choice(able) if able and self.choose.random() < 0.97 else self.anyone()

    def one(self, numbers):
        """A request among these, rather one of late."""
        if not numbers:
            return None
        return self.desk.requests[numbers[-1 - int(len(numbers) * self.choose.random() ** 2)] - 1]

    def file(self, at, way):
        choose, number = self.choose, len(self.desk.requests) + 1
        queue = choose.choices(list(QUEUES), [40, 15, 15, 15, 8, 7])[0]
        requestors = [] if choose.random() < 0.8 else choose.sample(self.office.persons, choose.randint(1, 2))
        status = None
        if choose.random() < 0.1:
            status = choose.choice(self.desk.by_name[queue].lifecycle.statuses)
        if way == "page" and status is not None and status not in self.desk.by_name[queue].lifecycle.create:
            status = None
        first = texts.text(choose) if way == "page" and choose.random() < 0.7 else None
        return self.fit(Ask(at, way, self.anyone(), "create",
                            [queue, texts.subject(choose, number), status, requestors], first))

    def fit(self, ask):
        """The same, by the interface where its texts can't be words or a line."""
        words = [it for it in ask.words if isinstance(it, str)]
        if ask.name == "create":
            words += ask.words[3]
        if ask.way in ("shell", "file") and any("\0" in it or it == "-" for it in words):
            ask.way = "http" if ask.way == "shell" else ask.way
            if ask.way == "file":
                return None
        return ask

    def work(self, at, way, name, one, *words, by=None):
        if one is None:
            return None
        return self.fit(Ask(at, way, by or self.helper(one.queue.name), name, [one.number, *words]))

    def take(self, at, way):
        free = [it for it in self.live[-60:] if self.desk.requests[it - 1].owner is None]
        one = self.one(free or self.live)
        owner = one.owner if one else None
        return self.work(at, way, "steal" if owner and self.choose.random() < 0.5 else "take", one)

    def owned(self):
        of = self.one([it for it in self.live[-150:] if self.desk.requests[it - 1].owner] or self.live)
        return of, of.owner if of and of.owner in self.office.tokens and self.choose.random() < 0.9 else None

    def answer(self, at, way):
        one, owner = self.owned()
        ask = self.work(at, way, "correspond", one, texts.text(self.choose), by=owner)
        if ask and ask.way == "page" and self.choose.random() < 0.2:
            ask.then = (one.queue.lifecycle.inactive or [None])[0]
        return ask

    def comment(self, at, way):
        one, owner = self.owned()
        return self.work(at, way, "comment", one, texts.text(self.choose), by=owner)

    def move(self, at, way):
        one, owner = self.owned()
        if one is None:
            return None
        after = [it for it in one.queue.lifecycle.active if (one.status, it) in one.queue.lifecycle.moves]
        status = self.choose.choice(after or one.queue.lifecycle.statuses)
        return self.work(at, way, "status", one, status, by=owner)

    def resolve(self, at, way):
        one, owner = self.owned()
        if one is None:
            return None
        after = [it for it in one.queue.lifecycle.inactive if (one.status, it) in one.queue.lifecycle.moves]
        if not after:
            return self.move(at, way)
        return self.work(at, way, "status", one, after[0] if self.choose.random() < 0.8 else after[-1], by=owner)

    def hand(self, at, way):
        one, owner = self.owned()
        if one is None:
            return None
        lot = self.choose.random()
        if lot < 0.3:
            return self.work(at, way, "untake", one, by=owner)
        if lot < 0.5:
            return self.work(at, way, "steal", one)
        return self.work(at, way, "give", one, self.helper(one.queue.name), by=owner)

    def people(self, at, way):
        one, owner = self.owned()
        if one is None:
            return None
        lot = self.choose.random()
        if lot < 0.35:
            level = self.choose.choice([None, *self.desk.settings.levels])
            return self.work(at, way, "level", one, level, by=owner)
        role, who = self.choose.choice(ROLES), self.anyone()
        watching = sorted(one.roles[role])
        if watching and lot > 0.8:
            return self.work(at, way, "unwatch", one, role, self.choose.choice(watching), by=owner)
        return self.work(at, way, "watch", one, role, who, by=who if lot < 0.5 else owner)

    def link(self, at, way):
        (one, owner), other = self.owned(), self.one(self.live)
        if one is None:
            return None
        links = sorted(it for it in self.desk.links if it.source == one.number)
        if links and self.choose.random() < 0.5:
            it = self.choose.choice(links)
            return self.work(at, way, "unlink", one, it.kind, it.target, by=owner)
        return self.work(at, way, "link", one, self.choose.choice(KINDS), other.number, by=owner)

    def late_reply(self, at, way):
        one = self.one((self.closed if self.choose.random() < 0.3 else self.live)[-200:])
        asking = [it for it in sorted(one.roles["requestor"]) if it in self.office.tokens] if one else []
        return self.work(at, way, "correspond", one, texts.text(self.choose), by=(asking or [None])[0])

    def look(self, at, way):
        choose, lot = self.choose, self.choose.random()
        one = self.one(self.live if lot < 0.9 else self.closed)
        if lot < 0.5 and one:
            name = choose.choice(["show", "history"])
            asking = [*one.roles["requestor"], self.helper(one.queue.name), self.anyone()]
            by = choose.choice([it for it in sorted(asking) if it in self.office.tokens])
            return Ask(at, way, by, name, [one.number])
        if lot < 0.62 and way == "page":
            return Ask(at, way, self.anyone(), "find", [self.search(at)])
        if lot < 0.75:
            queue = choose.choice(list(QUEUES))
            return Ask(at, way, self.helper(queue), "ls", [queue])
        return Ask(at, way, self.anyone(), choose.choice(["queues", "overdue", "workload"]))

    def search(self, at):
        choose, fields = self.choose, {}
        day = (datetime.date(1970, 1, 1) + datetime.timedelta(days=at // 1440 - choose.randrange(60))).isoformat()
        lots = {"words": choose.choice([*texts.THINGS, "IS JAMMED", "straße", "<script>", "1"]), "replies": "yes",
                "queue": choose.choice(list(QUEUES)), "state": choose.choice(["open", "closed"]),
                "owner": choose.choice(["Me", "Nobody", self.anyone()]),
                "requestor": choose.choice(["Me", self.anyone()]), "late": "yes", "from": day, "to": day,
                "turn": choose.choice(["desk", "requestor"]),
                "order": choose.choice(["newest", "oldest", "due", "due-last", "active", "quiet"])}
        for name in choose.sample(sorted(lots), choose.randint(0, 4)):
            fields[name] = lots[name]
        if "state" not in fields and choose.random() < 0.2:
            fields["status"] = choose.choice(["open", "closed", "asked", "nosuch"])
        return fields

    def trespass(self, at, way):
        """What isn't allowed, or can't be, tried by somebody."""
        choose, by = self.choose, self.anyone()
        one = self.desk.requests[choose.randrange(len(self.desk.requests))] if self.desk.requests else None
        number = one.number if one and choose.random() < 0.9 else choose.choice([0, 999_999, 3_999_999])
        strange = choose.choice(texts.STRANGERS)
        queue = choose.choice([*QUEUES, "nosuch"])
        return self.fit(choose.choice([
            lambda: Ask(at, way, by, "status", [number, choose.choice(["deleted", "open", "closed", "nosuch"])]),
            lambda: Ask(at, way, by, "take", [number]), lambda: Ask(at, way, by, "steal", [number]),
            lambda: Ask(at, way, by, "give", [number, choose.choice([strange, self.anyone()])]),
            lambda: Ask(at, way, by, "comment", [number, choose.choice(texts.HOSTILE + texts.REFUSED)]),
            lambda: Ask(at, way, by, "correspond", [number, choose.choice(texts.HOSTILE + texts.LONG)]),
            lambda: Ask(at, way, by, "watch", [number, choose.choice(ROLES), choose.choice([strange, by])]),
            lambda: Ask(at, way, by, "link", [number, choose.choice(KINDS), number]),
            lambda: Ask(at, way, by, "level", [number, choose.choice(["standard", "nosuch"])]),
            lambda: Ask(at, way, by, "show", [number]), lambda: Ask(at, way, by, "history", [number]),
            lambda: Ask(at, way, by, "ls", [queue]),
            lambda: Ask(at, way, by, "create", [queue, choose.choice(texts.HOSTILE + texts.REFUSED), None, []]),
            lambda: Ask(at, way, by, "create", [queue, "for a stranger", None, [it for it in [strange] if it]]),
            lambda: Ask(at, way, choose.choice([by, self.office.admin]), "queue",
                        [choose.choice(["support", "new-queue", "Bad", "x" * 21, strange]),
                         choose.choice(["default", "nosuch"]), choose.choice([None, "standard", "nosuch"])]),
        ])())

    def seldom(self, at, way):
        """What would have come by lot too seldom."""
        one, queue = self.one(self.live), self.choose.choice(list(QUEUES))
        by = self.helper(one.queue.name if one else queue)
        asks = [make(self.choose, self.desk, self.office.present(), at, way)
                for make in (seldom.untold, seldom.by_role)]
        if way == "page" and asks[0]:
            asks.append(seldom.searched(self.choose, asks[0]))
        asks.append(seldom.empty(self.choose, at, way, by, queue, one.number if one else 1))
        asks += [self.refused_seldom(at, way), self.refused_seldom(at, way)]
        return [it for it in asks if it]

    def do_seldom(self, way, at):
        for ask in self.seldom(at, way):
            self.ask(ask)

    def refused_seldom(self, at, way):
        """Of some tries, that whose refusal was seen least so far, or None."""
        kinds = [self.trespass, self.file, self.take, self.answer, self.comment, self.move, self.hand, self.people,
                 self.link]
        tries = [self.choose.choice(kinds)(at, way) for _ in range(TRIES)]
        tries = [it for it in tries if it and it.way == way and not it.reads]
        for ask in tries[::2]:
            ask.by = self.anyone()
        refused = [(refusal_of(self.desk, it), it) for it in tries]
        why, ask = min((it for it in refused if it[0]), key=lambda it: self.refusals[it[0]], default=(None, None))
        self.refusals[why] += why is not None
        return ask

    def in_a_field(self, at, way):
        """A hostile text in the next field, by somebody who may fill it in, and the field. Where that way has no
        such field, none, and the field waits for another way."""
        one, queue = self.one(self.live), self.choose.choice(list(QUEUES))
        by = self.choose.choice([self.office.admin, self.helper(one.queue.name if one else queue)])
        if not self.fields:
            self.fields = self.choose.sample(EACH, len(EACH))
        name, field = self.fields.pop()
        ask = hostile(self.choose, name, field, at, way, by, queue, one.number if one else 1)
        if way in ("load", "file") and ask.way != way:
            self.fields.insert(0, (name, field))
            return None, field
        return self.fit(ask), field

    def field(self, at):
        ask, field = self.in_a_field(at, self.choose.choice(["page", "page", "http", "shell"]))
        self.play(ask)
        self.add("field", at, ask=ask.table(), field=field)

    def tabs(self, at):
        """Pages of several requests stand open in one browser, while others work on these. Their forms are sent
        then, some of them twice."""
        by, choose = self.helper(self.choose.choice(list(QUEUES))), self.choose
        kinds = [self.answer, self.take, self.move, self.comment, self.file]
        made = [choose.choice(kinds)(at, "page") for _ in range(4)]
        asks = [it for it in made if it is not None and it.way == "page"]
        between = []
        for ask in asks:
            ask.by = by
            if ask.request() and choose.random() < 0.7:
                one, way = self.desk.requests[ask.request() - 1], choose.choice(["page", "http", "shell"])
                name = choose.choice(["take", "steal", "status", "correspond"])
                more = {"status": [choose.choice(one.queue.lifecycle.statuses)], "correspond": ["meanwhile"]}
                between += self.played(self.work(at, way, name, one, *more.get(name, [])))
        asks += [copied(it) for it in asks if choose.random() < 0.25]
        for ask in asks:
            self.play(ask)
        if asks:
            self.add("tabs", at, asks=[it.table() for it in asks], between=[it.table() for it in between],
                     signs_out=choose.random() < 0.3)

    # ---- what goes wrong

    def on_many(self, at, count, kinds=("create", "correspond", "take", "comment", "status")):
        """So many commands on as many requests: none waits for another."""
        asks, used = [], set()
        for _ in range(8 * count):
            way = self.choose.choices(["page", "http", "shell"], [40, 40, 20])[0]
            made = self.choose.choice([self.file, self.answer, self.take, self.comment, self.resolve,
                                       self.late_reply])(at, way)
            if made is None or made.name not in kinds or len(asks) >= count:
                continue
            if made.name == "create":
                made.words[1] = f"{self.choose.choice(texts.THINGS)} at once {len(self.steps)}-{len(asks)}"
                made.then = made.then and "at once"
            elif made.words[0] in used:
                continue
            used.add(made.request())
            asks.append(made)
        return asks

    def several(self, do, at, asks, **more):
        for ask in asks:
            self.play(ask)
        self.add(do, at, asks=[it.table() for it in asks], **more)

    def kill(self, at):
        self.several("kill", at, self.on_many(at, self.choose.randint(2, 16)), after=round(self.choose.random(), 3))

    def full(self, at):
        self.several("full", at, self.on_many(at, 12), pages=self.choose.choice([0, 1, 2, 4, 8, 12, 16, 24]))

    def together(self, at):
        """Two press at once, on one request."""
        one = self.one(self.live[-40:])
        if one is None:
            return
        ways = [self.choose.choice(["page", "http"]) for _ in range(2)]
        name = self.choose.choice(["take", "steal", "status", "correspond"])
        more = {"status": [(one.queue.lifecycle.inactive or ["resolved"])[0]], "correspond": ["at once"]}
        asks = [Ask(at, way, self.helper(one.queue.name), name, [one.number, *more.get(name, [])]) for way in ways]
        self.several("together", at, asks)

    def burst(self, at, count=500):
        """Five hundred at once: filings and replies, and readings of what these don't touch."""
        asks = self.on_many(at, 60, ("create", "correspond"))
        used = {it.request() for it in asks}
        rest = [it for it in self.live[-300:] if it not in used] or [0]
        for _ in range(count - len(asks)):
            way, number = self.choose.choice(["page", "http"]), self.choose.choice(rest)
            asks.append(Ask(at, way, self.anyone(), self.choose.choice(["show", "history"]), [number]))
        self.choose.shuffle(asks)
        self.several("burst", at, asks)

    def copy(self, at):
        self.add("copy", at, by=self.office.admin, lookers=self.choose.sample(self.office.present(), 3))

    def strange(self, at):
        self.add("strange", at, what=self.choose.randrange(1000), by=self.anyone())


def copied(ask):
    """The same form once more."""
    return Ask(**{**ask.table(), "key": None})


def moment_of(day, hour):
    return (day - datetime.date(1970, 1, 1)).days * 1440 + hour * 60
