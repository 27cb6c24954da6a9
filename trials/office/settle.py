"""What was done of several asks at once, where some of them may have had no answer. The model tries what
can have been: commands in another order, or done and not done, and never half."""
import itertools
import re

from office import expected, kept
from office.asks import commands, words_of
from office.deeds import do
from rules import Refused

UNAVAILABLE = "refused 16 Unavailable"


class Saved:
    """How these requests, the links and the queues are, to go back to."""

    def __init__(self, desk, numbers):
        self.desk, self.count, self.links = desk, len(desk.requests), set(desk.links)
        self.queues = dict(desk.by_name)
        there = [it for it in numbers if it is not None and 1 <= it <= self.count]
        self.of = {it: copied(desk.requests[it - 1].__dict__) for it in there}

    def back(self):
        added = range(self.count + 1, len(self.desk.requests) + 1)
        self.desk.forget([*self.of, *added])
        del self.desk.requests[self.count:]
        self.desk.links, self.desk.by_name = set(self.links), dict(self.queues)
        for number, kept_of in self.of.items():
            self.desk.requests[number - 1].__dict__.update(copied(kept_of))


def copied(facts):
    roles = {role: set(persons) for role, persons in facts["roles"].items()}
    return {**facts, "roles": roles, "entries": list(facts["entries"])}


def wanted(desk, ask):
    """What the way of the ask has to answer. The model makes the step."""
    if ask.way == "page":
        return expected.by_form(desk, ask)
    return (expected.by_message if ask.way == "http" else expected.by_words)(desk, ask)


def is_unavailable(answer):
    """Whether memory or the disk refused, in any way in."""
    if answer is None:
        return False
    code, told = answer if isinstance(answer[0], int) else reversed(answer)
    text = told.get("refused") if isinstance(told, dict) else told.strip("\n")
    return text == UNAVAILABLE and code in (503, 4)


def number_filed(answer):
    """The number that an answer to a filing tells, or None."""
    if answer is None:
        return None
    text = next((it if isinstance(it, str) else it.get("filed") or "" for it in answer if not isinstance(it, int)), "")
    found = re.match("(?:request |/desk/requests/|It is request )([0-9]+)", text)
    return int(found[1]) if found else None


def in_some_order(desk, asks, answers, there):
    """None where some order of the asks on one request explains the answers, and the rows that are there; else
    what the first order wants. Of an ask without an answer so many commands are done as it takes."""
    number = asks[0].request()
    saved, first = Saved(desk, {number}), None
    parts = [range(len(list(commands(ask))), -1, -1) if answer is None else [None] for ask, answer in zip(asks, answers)]
    for order, counts in itertools.product(itertools.permutations(range(len(asks))), itertools.product(*parts)):
        told = [None] * len(asks)
        for place in order:
            if counts[place] is None:
                told[place] = wanted(desk, asks[place])
            else:
                make(desk, asks[place], counts[place])
        if told == answers and kept.rows_here(desk, number) == there:
            return None
        first = first or told
        saved.back()
    return first


def refusal_of(desk, ask):
    """How the first of its commands would be refused that is: its name, the refusal and the right; or None. Nothing
    is changed by it."""
    saved = Saved(desk, {ask.request()})
    for name, words in commands(ask):
        try:
            do(desk, ask, name, words)
        except Refused as it:
            return name, it.name, it.right
        finally:
            saved.back()
    return None


def make(desk, ask, count):
    """Makes so many of the commands of an ask."""
    for name, words in itertools.islice(commands(ask), count):
        try:
            do(desk, ask, name, words)
        except Refused:
            return


class Settled:
    """Asks on as many requests: each is done as it was answered, or else done or not done as the tables
    have it. `wrong` says what can't be, and `numbers` which numbers were given to which keys."""

    def __init__(self, desk, tables):
        self.desk, self.tables, self.wrong, self.numbers = desk, tables, [], {}
        self.done = self.undone = 0

    def all(self, asks, answers):
        filing = [(ask, answer) for ask, answer in zip(asks, answers) if ask.name == "create"]
        self.file(filing)
        for ask, answer in zip(asks, answers):
            if ask.name != "create":
                self.one(ask, answer, ask.request())
        return self

    def file(self, filing):
        """The filings in the order of the numbers that were given."""
        left = list(filing)
        for number, subject in kept.filed_after(self.tables, len(self.desk.requests)):
            place = next((i for i, it in enumerate(left) if words_of(it[0])[1] == subject), None)
            if place is None:
                self.wrong.append(f"request {number} was filed by nobody: {subject!r}")
                return
            ask, answer = left.pop(place)
            self.one(ask, answer, number)
            self.numbers[ask.key] = number
        for ask, answer in left:
            if answer is None or is_unavailable(answer):
                self.undone += 1
            else:
                self.compare(ask, answer)

    def compare(self, ask, answer):
        told = wanted(self.desk, ask)
        if told != answer:
            self.wrong.append(f"{ask} was answered {answer!r} and not {told!r}")

    def one(self, ask, answer, number):
        if answer is not None and not is_unavailable(answer):
            self.compare(ask, answer)
            return
        there = kept.rows_at(self.tables, number)
        saved = Saved(self.desk, {number})
        for count in self.counts(ask, answer):
            make(self.desk, ask, count)
            if kept.rows_here(self.desk, number) == there:
                self.done, self.undone = self.done + (count > 0), self.undone + (count == 0)
                return
            saved.back()
        self.wrong.append(f"{ask} is neither done nor not done: {there}")

    def counts(self, ask, answer):
        """How many of its commands may have been done: where it was told that there is no room, not the last."""
        count = len(list(commands(ask)))
        return range(count - 1 if is_unavailable(answer) else count, -1, -1)
