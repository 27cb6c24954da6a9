"""RT's desk as its tables tell it: people, queues, tickets as they are, and as they were filed. Of
transactions and texts none is kept: they are read from the beginning each time they are asked for."""
import collections
import datetime
import sys

import rows
from beginnings import Beginnings
from kinds import ROLES, ROLE_PLACES, status_in
from moments import END, FIRST

NOBODY = frozenset()
MOST_REQUESTS, MOST_QUEUES = 1_000_000, 1_000


class Source:
    def __init__(self, place, configuration, report):
        self.place, self.configuration, self.report = place, configuration, report
        self.users = {row.id: row for row in self.rows("users")}
        self.nobody = self.user_called("Nobody")
        self.system = self.user_called("RT_System")
        self.groups = {row.id: row for row in self.rows("groups")}
        self.members = collections.defaultdict(list)
        for row in self.rows("members"):
            self.members[row.group].append(row.member)
        self.rights = list(self.rows("rights"))
        self.links = list(self.rows("links"))
        self.level_fields = {str(row.field) for row in self.rows("level_fields")}
        self.read_queues()
        self.read_tickets()
        self.read_people()
        self.beginnings = Beginnings(self, self.transactions())

    def rows(self, name):
        return rows.read(self.place, name)

    def user_called(self, name):
        found = next((it.id for it in self.users.values() if it.name == name), None)
        if found is None:
            raise rows.Fault(f"RT's tables have no user {name}")
        return found

    def read_queues(self):
        own = {row.queue: row.level for row in self.rows("queue_levels")}
        by_queue = self.configuration["agreements"].get("QueueDefault") or {}
        general = self.configuration["agreements"].get("Default")
        self.queues, self.queue_levels = {}, {}
        for row in self.rows("queues"):
            named = by_queue.get(row.name)
            named = named.get("Level") if isinstance(named, dict) else named
            self.queues[row.id] = row
            self.queue_levels[row.id] = None if row.no_level else own.get(row.id) or named or general

    def read_tickets(self):
        """The tickets that are requests of people; reminders and the like are counted."""
        self.tickets, self.other_tickets, self.last_number = {}, {}, 0
        moment = FIRST
        for row in self.rows("tickets"):
            self.last_number = max(self.last_number, row.id)
            moment = self.moment(row.created, moment)
            kind = row.type or "ticket"
            if kind == "ticket" and row.queue in self.queues:
                self.tickets[row.id] = row._replace(
                    created=moment, status=sys.intern(status_in(row.status)),
                    level=sys.intern(row.level) if row.level else None, type=None,
                    owner=row.owner if row.owner in self.users else self.nobody,
                    creator=row.creator or self.system)
                continue
            kind = "ticket of a queue that is gone" if kind == "ticket" \
                else f"{kind}, which RT keeps as a ticket"
            self.other_tickets[row.id] = kind
            self.report.left(kind, 1, row.id)
        for row in self.rows("level_values"):
            if row.ticket in self.tickets and not self.tickets[row.ticket].level:
                self.tickets[row.ticket] = self.tickets[row.ticket]._replace(level=row.level)

    def read_people(self):
        """Who is in a role of each ticket: three sets in the order of ROLES, shared where they are
        the same."""
        found = collections.defaultdict(lambda: ([], [], []))
        for row in self.rows("watchers"):
            if row.ticket not in self.tickets:
                continue
            if row.role not in ROLES:
                self.report.left("person or group in a custom role of a ticket", 1, row.ticket)
            elif row.member in self.users:
                found[row.ticket][ROLE_PLACES[row.role]].append(row.member)
            else:
                self.report.left("group as a watcher of a ticket", 1, row.ticket)
        shared, none = {}, (NOBODY, NOBODY, NOBODY)
        self.people = {id: none for id in self.tickets}
        for id, those in found.items():
            sets = tuple(shared.setdefault(it, it) for it in map(frozenset, those))
            self.people[id] = shared.setdefault(sets, sets)

    def moment(self, found, before):
        """A moment that the desk knows; the one before, where RT has none."""
        if found is None:
            self.report.other("moment that isn't set, by the one before")
            return before
        if not FIRST <= found < END:
            self.report.other("moment before 2000 or after 2099, moved there")
        return min(max(found, FIRST), END - 1)

    def transactions(self, is_counting=False):
        """All of them in the order of their numbers, those of tickets with a moment and a creator."""
        moment = FIRST
        for it in self.rows("transactions"):
            if it.object == "RT::Ticket" and it.ticket in self.tickets:
                if it.created is None or not FIRST <= it.created < END:
                    found = self.moment(it.created, moment) if is_counting \
                        else min(max(it.created or moment, FIRST), END - 1)
                    it = it._replace(created=found)
                moment = it.created
                if not it.creator:
                    it = it._replace(creator=self.system)
            yield it

    def years(self):
        """From the year of the first ticket to ten years behind that of the last."""
        minutes = [row.created for row in self.tickets.values()] or [END - 1]
        first, last = (datetime.datetime.fromtimestamp(it * 60, datetime.timezone.utc).year
                       for it in (min(minutes), max(minutes)))
        return first, min(last + 11, 2100)

    def sets_level(self, it):
        return (it.type, it.field) == ("Set", "SLA") or \
            it.type == "CustomField" and it.field in self.level_fields
