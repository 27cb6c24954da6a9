"""What each thing of RT is called in the desk."""
import lifecycles
from hours import Hours
from names import Names
from rows import Fault
from source import MOST_QUEUES

GAP = "rt-gap"


class Wording:
    def __init__(self, source, report):
        self.source, self.report = source, report
        self.persons = Names("user", report)
        self.groups = Names("group", report, self.persons.taken)
        self.queue_names = Names("queue", report, {GAP})
        self.statuses = Names("status", report)
        self.cycle_names, self.cycles = Names("lifecycle", report, {GAP}), {}
        used = {row.queue for row in source.tickets.values()}
        self.carried = [id for id, row in source.queues.items() if id in used or not row.disabled]
        if len(self.carried) >= MOST_QUEUES:
            raise Fault(f"{len(self.carried):,} queues: the desk has at most {MOST_QUEUES:,}")
        report.left("queue that is disabled and empty", len(source.queues) - len(self.carried))
        self.hours = Hours(source.configuration, range(*source.years()),
                           Names("level", report), Names("calendar", report), self.status, report)
        for id in self.carried:
            self.lifecycle(id)

    def person(self, id):
        row = self.source.users.get(id)
        return self.persons.of(id, row.name if row else f"user-{id}")

    def status(self, text):
        return self.statuses.of(text.lower(), text)

    def level(self, text):
        return self.hours.level(text)

    def queue(self, id):
        return self.queue_names.of(id, self.source.queues[id].name) if id in self.carried else None

    def queues(self):
        return [(id, self.queue(id)) for id in self.carried]

    def lifecycle(self, queue):
        told = self.source.configuration["lifecycles"]
        name = self.source.queues[queue].lifecycle or "default"
        if name not in told:
            self.report.other("queue whose lifecycle isn't configured, by `default`")
            name = "default"
        if name not in self.cycles:
            self.cycles[name] = lifecycles.lifecycle(self.cycle_names.of(name, name),
                                                     told.get(name) or {}, self.status, self.report)
        return self.cycles[name]

    def everybody(self):
        """The users who may sign in, each by name with an address."""
        own = (self.source.system, self.source.nobody)
        return [(self.person(row.id), row.address) for row in self.source.users.values()
                if row.id not in own and not row.disabled]

    def told(self, requests):
        """What compare.py has to know: each name by RT's, and each request by its ticket's number."""
        return {
            "persons": self.persons.given, "statuses": self.statuses.given,
            "queues": self.queue_names.given, "levels": self.hours.level_names.given,
            "plain levels": sorted(self.hours.plain),
            "numbers": {id: request.number for id, request in requests.items()},
            "merged": [id for id, request in requests.items() if request.merged],
        }
