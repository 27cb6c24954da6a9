"""One run of steps: the programs on the one side, the model on the other. Each answer is compared when it
comes, and what a fault left undecided is found in the tables."""
import os
import sqlite3
import statistics
import time
from concurrent.futures import ThreadPoolExecutor

from office import expected, faults, kept, seldom, strange, tabs
from office.asks import PAGES, Ask, apart, form, form_page, numbered, spelled
from office.browser import Browser, hidden_of
from office.crowd import Crowd
from office.differs import Differs
from office.figures import Figures, Night, outcome
from office.hidden import Subjects
from office.known import Desk, Known
from office.reader import has_place
from office.server import Programs, Server
from office.settle import in_some_order, number_filed, wanted
from office.ways import CUT, SLOW, SPENT, Messages, Shell

# how many clients a burst has at once
SIDE_BY_SIDE = 500


class Trial:
    def __init__(self, bins, room, crowd=True):
        self.programs = Programs(bins, room)
        self.server = Server(self.programs)
        self.desk, self.subjects, self.tokens, self.numbers = None, None, {}, {}
        self.figures, self.crowd, self.wants_crowd = Figures(), None, crowd
        CUT.clear()
        self.browser, self.messages, self.shell = Browser(self.programs.clock), None, None
        self.pool = ThreadPoolExecutor(SIDE_BY_SIDE)

    def run(self, steps, until=float("inf")):
        """The place of the first step that differs, and what differs; or None. No day begins after that moment."""
        place = None
        try:
            for place, step in enumerate(steps):
                if steps[place - 1]["do"] == "night" and time.monotonic() > until:
                    break
                self.programs.clock.set(step["at"])
                getattr(self, "do_" + step["do"])(**{name: it for name, it in step.items() if name != "do"})
        except Differs as what:
            return place, str(what)
        except sqlite3.OperationalError as what:
            return place, f"the tables: {what} in place of those of a desk"
        finally:
            self.end()
        return None

    def end(self):
        if self.crowd:
            self.crowd.over.set()
            self.crowd.join()
            self.figures.faults["silent and slow clients"] += self.crowd.came
            self.figures.faults["silent and slow clients cut off"] += self.crowd.cut
        if self.server.runs():
            self.server.kill(9)
        self.pool.shutdown()
        self.figures.sessions.update(self.browser.counts)
        self.figures.faults["cut off since all was slow"] += len(CUT)

    def need(self, what, given, wanted_of):
        if given != wanted_of:
            raise Differs(f"{what}: {shortened(given, wanted_of)} in place of {shortened(wanted_of, given)}")

    # ---- the server

    def up(self):
        """The server runs, and each way leads to it."""
        if self.server.runs():
            return
        if not self.server.start():
            status, printed, errors = self.server.gone()
            raise Differs(f"no start: {self.server.told!r} {printed!r} {errors!r}, status {status}")
        self.browser.moved(self.server.port, self.tokens)
        self.messages = Messages(self.server.port, self.tokens, self.programs.clock)
        self.shell = Shell(self.programs, self.server.port)
        self.figures.faults["starts"] += 1
        if self.wants_crowd and not self.crowd:
            self.crowd = Crowd(self.server, next(iter(self.tokens.values())))
            self.crowd.start()

    def down(self):
        """The server is asked to stop, by who may."""
        if self.server.runs():
            self.need("asked to stop", self.server.stop(self.tokens[self.admin()]), (b"stops\n", (0, b"", b"")))

    def admin(self):
        return next(it for it in self.tokens if self.desk.settings.holds(it, "SuperUser", ""))

    # ---- steps

    def do_settings(self, at, text):
        self.down()
        known = Known(text)
        self.programs.write("settings.toml", text)
        self.tokens = {person: word for word, person in known.tokens.items()}
        for person, word in self.tokens.items():
            self.programs.write(f"{person}.token", word)
        if self.desk is None:
            self.desk = Desk(known)
            self.subjects = Subjects(self.desk)
        else:
            self.desk.with_settings(known)
            self.figures.faults["settings changed"] += 1
        printed, status = self.programs.load(b"", "--check")[:2]
        found, *warned = printed.splitlines()
        self.need("desk_load --check", (found, status), ("nothing is wrong", 0))
        self.need("its warnings", sorted(warned), sorted(
            f"warning: the token of `{person}` has fewer than 22 characters"
            for word, person in known.tokens.items() if len(word) < 22))

    def do_ask(self, at, ask):
        self.up()
        self.one(numbered(Ask.of(ask), self.numbers))

    def do_field(self, at, ask, field):
        self.do_ask(at, ask)
        self.figures.fields.add((ask["way"], ask["name"], field))
        self.figures.faults["hostile texts in a field"] += 1

    def one(self, ask):
        """One ask, its answer and the model's. Of a form its page is looked at before."""
        self.sent(ask, self.form_page(ask) if ask.way == "page" and not ask.reads else None)

    def sent(self, ask, hidden):
        """One ask; of a form, with the hidden fields of the page on which it stands."""
        answer = self.answer(ask, hidden)
        seconds = SPENT.seconds
        if answer is None and seconds >= SLOW:
            CUT.append(ask)
            faults.settle(self, [ask], [None], "cut off")
            return
        told = self.told(ask)
        self.need(f"{ask}", answer, told)
        if ask.way == "page":
            self.hides(ask.by, ask.words)
        self.figures.answered(ask, outcome(answer), seconds)
        if ask.name == "create" and number_filed(answer) and ask.key:
            self.numbers[ask.key] = number_filed(answer)
        if ask.way == "page" and answer[0] == 303:
            self.led(ask, *answer[1].partition("#")[::2])

    def led(self, ask, path, mark):
        """The page to which a form led, and the place on it."""
        if path != "/":
            page = self.page(ask, "request", path, int(path.rpartition("/")[2]))
            is_there = not page or page[0] != 200 or has_place(self.browser.last.text(), mark)
            self.need(f"the place {mark} on {path}", is_there, True)

    def answer(self, ask, hidden=None):
        if ask.way == "page" and ask.name == "correspond":
            ask.seen = int((hidden or {}).get("seen") or expected.last_told(self.desk, ask))
        if ask.way == "page":
            return self.browser.reading(ask) if ask.reads else self.browser.post(ask, hidden)
        return (self.messages if ask.way == "http" else self.shell).answer(ask)

    def told(self, ask):
        """What the model answers. It makes the step."""
        kind = seldom.kind_of(self.desk, ask)
        if kind:
            self.figures.seldom[kind, ask.way] += 1
        if ask.way == "page" and ask.reads:
            return expected.by_page(self.desk, ask, PAGES[ask.name], *ask.words)
        return wanted(self.desk, ask)

    def page(self, ask, name, path, *words):
        """A page, compared; its reply."""
        given = self.browser.page(ask.by, name, path)
        self.figures.timed("page (read)", ask.at, SPENT.seconds)
        self.need(f"{path} for {ask.by} at {ask.at}", given, expected.by_page(self.desk, ask, name, *words))
        self.figures.compared["pages"] += 1
        self.hides(ask.by)
        return given

    def hides(self, by, typed=()):
        """The page that was shown last tells no subject that its reader may not see, but for what was typed."""
        page = self.browser.last.text() if self.browser.last else ""
        told = [it for it in self.subjects.hidden(by, page) if it not in typed]
        self.need(f"hidden from {by}, but on the page", told, [])

    def form_page(self, ask):
        """The page on which the form stands is looked at, and its hidden fields go with the form."""
        path, name, words = form_page(ask)
        self.page(ask, name, path, *words)
        fields = hidden_of(self.browser.last, form(ask)[0])
        self.need(f"whose page {path} is", fields.get("me", ask.by), ask.by)
        return fields

    # ---- many at once

    def sign_in(self, asks):
        """Everybody who asks in a browser is signed in."""
        for by in sorted({it.by for it in asks if it.way == "page"}):
            self.need(f"{by} signs in", self.browser.ready(by), True)

    def at_once(self, asks):
        """The answers to asks that come at once, by people who signed in before."""
        return list(self.pool.map(self.timed, asks))

    def timed(self, ask):
        """The answer to an ask, and how long it took."""
        answer = self.answer(ask)
        return answer, SPENT.seconds

    def do_together(self, at, asks):
        """Two press at once: the answers are those of one order or of the other."""
        self.up()
        asks = [numbered(Ask.of(it), self.numbers) for it in asks]
        self.sign_in(asks)
        pairs = self.at_once(asks)
        with kept.opened(self.programs.path("desk.db")) as tables:
            there = kept.rows_at(tables, asks[0].request())
        first = in_some_order(self.desk, asks, [answer for answer, _ in pairs], there)
        if first is not None or any(answer is None and seconds < SLOW for answer, seconds in pairs):
            self.need(f"at once: {asks}, with {there}", [answer for answer, _ in pairs], first)
        self.figures.faults["two at once"] += 1
        for ask, (answer, _) in zip(asks, pairs):
            if answer is not None:
                self.figures.counted(ask, outcome(answer))

    def do_burst(self, at, asks):
        """All of it is answered, and none of it touches what another asks. The desk may cut off who hasn't sent
        a whole message in a quarter of a second: whoever looked looks again, and what was done of the others'
        commands is found in the tables."""
        self.up()
        asks = list(apart(numbered(Ask.of(it), self.numbers) for it in asks))
        self.sign_in(asks)
        pairs = list(zip(asks, self.at_once(asks)))
        for place, (ask, (answer, seconds)) in enumerate(pairs):
            if answer is None:
                self.figures.faults["cut off in a burst"] += 1
                pairs[place] = ask, self.timed(ask) if ask.reads else (None, seconds)
            else:
                self.figures.times["in a burst of 500"].append(seconds)
        written = [(ask, it) for ask, (it, _) in pairs if not ask.reads]
        faults.settle(self, [ask for ask, _ in written], [it for _, it in written], "in a burst")
        for ask, answer in [(ask, it) for ask, (it, _) in pairs if ask.reads]:
            self.need(f"in a burst: {ask}", answer, self.told(ask))
            self.figures.counted(ask, outcome(answer))
        self.figures.faults["bursts"] += 1

    def do_tabs(self, at, asks, between, signs_out):
        self.up()
        asks, between = ([numbered(Ask.of(it), self.numbers) for it in some] for some in (asks, between))
        tabs.several(self, asks, between, signs_out)

    def do_strange(self, at, what, by):
        self.up()
        wrong = strange.try_one(self.server.port, strange.Sender(by, self.tokens[by], at), what)
        if wrong:
            raise Differs(wrong)
        self.figures.faults["strange messages"] += 1

    # ---- what goes wrong, and the nights

    def do_kill(self, at, asks, after):
        faults.kill(self, list(apart(numbered(Ask.of(it), self.numbers) for it in asks)), after)

    def do_full(self, at, asks, pages):
        faults.full(self, [numbered(Ask.of(it), self.numbers) for it in asks], pages)

    def do_end(self, at, how):
        faults.end(self, how)

    def do_copy(self, at, by, lookers):
        faults.copy(self, at, [it for it in lookers if it in self.tokens])

    def do_load(self, at, asks, killed):
        faults.load(self, [numbered(Ask.of(it), self.numbers) for it in asks], killed)

    def do_file(self, at, asks):
        """Commands on the file, while the server is down."""
        self.down()
        for table in asks:
            ask = numbered(Ask.of(table), self.numbers)
            began = time.monotonic()
            answer = self.programs.command(ask, spelled(ask))
            seconds = time.monotonic() - began
            self.need(f"{ask}", answer, self.told(ask))
            self.figures.answered(ask, outcome(answer), seconds)
            if ask.name == "create" and ask.key and number_filed(answer):
                self.numbers[ask.key] = number_filed(answer)

    def do_night(self, at):
        """All tables are those of the model: of a copy while it runs, or of the file while it stands still."""
        most = self.server.most_of_day()
        self.up()
        self.browser.evening()
        started = self.server.memory()
        if len(self.figures.nights) % 3 == 2:
            path = self.programs.path("desk.db")
            self.down()
        else:
            path = faults.copied(self)
        differs, rows = kept.difference(path, self.desk)
        if differs:
            raise Differs(f"the tables at night: {differs}")
        self.figures.compared["rows of tables"] += rows
        sizes = [os.path.getsize(it) if os.path.exists(it) else 0
                 for it in (self.programs.path("desk.db"), self.programs.path("desk.db-wal"))]
        self.figures.night(Night(at, len(self.desk.requests), most, started, *sizes, self.home(at)))

    def home(self, at):
        """The middle time of some looks at the first page, by one who sees all."""
        self.up()
        times = []
        ask = Ask(at, "page", self.admin(), "queues")
        self.one(ask)
        for _ in range(5):
            self.browser.get(ask.by, "/")
            times.append(SPENT.seconds)
        return statistics.median(times)


def shortened(value, beside, most=1500):
    """What of a value differs from the other one, where both are facts of a page."""
    both = [it[1] if isinstance(it, (tuple, list)) and len(it) == 2 and isinstance(it[1], dict) else None
            for it in (value, beside)]
    if None not in both and value[0] == beside[0]:
        return repr({name: it for name, it in both[0].items() if both[1].get(name) != it})[:most]
    return repr(value)[:most]
