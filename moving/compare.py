#!/usr/bin/env python3
"""Compares a desk that was moved with RT's tables, request by request, and prints what differs, with
counts. The status is 1 where something differs that the move should have carried.

    compare.py TABLES CONFIG OUT FILE

TABLES, CONFIG and OUT are those of from_rt.py, and FILE is the desk's. Of a ticket RT's own rows are
asked as they stand at the end, not what from_rt.py made of them, but for the names, and for texts,
which are read as it reads them: that none is missing, counts.py says. Due moments are compared by
kind: they have to be the same where nothing happened that RT counts by another rule; the others stand
in OUT/dues.tsv, each with its reason."""
import collections
import datetime
import itertools
import json
import os
import sqlite3
import sys
import zoneinfo

import texts
from files import Nowhere, Places
from hours import WEEK, intervals, zone_of
from kinds import KINDS, ROLES, merges, sets_status, status_in
from report import Report
from rows import open_tables, read
from source import Source
from tokens import owned

SHOWN = 40
FIELDS = ("queue", "subject", "created", "status", "statuses", "owner", "level", "requestor", "cc",
          "admincc", "links", "texts")
COLUMNS = ("queue", "subject", "created", "status", "owner", "level", "due")
# of a merged ticket RT has no state of its own
OF_MERGED = ("queue", "subject", "created", "texts")
# and of one whose history is too long for the desk, how it stands at the end
OF_CUT = tuple(field for field in FIELDS if field not in ("statuses", "texts"))
LISTS = {
    "people": "SELECT request, role, person FROM watcher ORDER BY request",
    "links": "SELECT source, kind, target FROM link ORDER BY source",
    "texts": "SELECT request, body FROM entry WHERE kind IN (4, 5) ORDER BY request, number",
    "statuses": "SELECT request, status, begun FROM stay ORDER BY request, number",
}


def day(minute):
    if minute is None:
        return "-"
    return datetime.datetime.fromtimestamp(minute * 60, datetime.timezone.utc).strftime("%Y-%m-%d %H:%M")


def without_empty(stays):
    """The statuses in their order with the moment of each, but for those that took no minute."""
    kept = []
    for place, (status, begun) in enumerate(stays):
        is_empty = place + 1 < len(stays) and stays[place + 1][1] <= begun
        if not is_empty and not (kept and kept[-1][0] == status):
            kept.append((status, begun))
    return kept


def grouped(rows):
    """The rest of each request's rows; asked for in the order of the requests."""
    groups = itertools.groupby(rows, lambda row: row[0])
    number, those = next(groups, (None, ()))
    wanted = yield
    while True:
        while number is not None and number < wanted:
            number, those = next(groups, (None, ()))
        wanted = yield [row[1:] for row in those] if number == wanted else []


def requests_of(path):
    """The requests of the desk's file, in the order of their numbers."""
    file = sqlite3.connect(f"file:{path}?mode=ro", uri=True)
    lists = {name: grouped(file.execute(statement)) for name, statement in LISTS.items()}
    for it in lists.values():
        next(it)
    for row in file.execute(f"SELECT id, {', '.join(COLUMNS)} FROM request ORDER BY id"):
        found = dict(zip(COLUMNS, row[1:]))
        of = {name: it.send(row[0]) for name, it in lists.items()}
        for place, role in enumerate(ROLES.values(), 1):
            found[role] = sorted(person for kind, person in of["people"] if kind == place)
        found["links"] = sorted((KINDS[kind - 1], target) for kind, target in of["links"])
        found["texts"] = [hash(body) for body, in of["texts"]]
        found["statuses"] = without_empty(of["statuses"])
        yield row[0], found
    file.close()


class Life:
    """What a ticket's transactions tell, in few bytes: texts by their hash."""
    __slots__ = ("stays", "texts", "is_due_by_hand", "is_changed", "is_moved")

    def __init__(self):
        self.stays, self.texts = (), ()
        self.is_due_by_hand = self.is_changed = self.is_moved = False


class Wanted:
    """What RT's tables say of a ticket, in the desk's words."""

    def __init__(self, source, names, bodies):
        self.source, self.names = source, names
        self.numbers = {int(id): number for id, number in names["numbers"].items()}
        self.links = collections.defaultdict(set)
        for row in source.links:
            is_carried = row.base in self.numbers and row.target in self.numbers
            if row.kind in KINDS and row.base != row.target and is_carried:
                self.links[row.base].add((row.kind, self.numbers[row.target]))
        self.lives = {id: Life() for id in source.tickets}
        for it in source.transactions():
            if it.object == "RT::Ticket" and it.ticket in self.lives:
                self.add(it, self.lives[it.ticket], bodies)

    def add(self, it, life, bodies):
        if it.type in ("Create", "Correspond", "Comment"):
            found = bodies.of(it.ticket, it.id, it.type != "Create")
            life.texts += tuple(hash(text) for text in found)
        elif sets_status(it):
            life.stays += ((status_in(it.new), it.created, status_in(it.old)),)
        elif merges(it) in self.numbers:
            life.texts += (hash(f"merged into {self.numbers[merges(it)]}"),)
        if (it.type, it.field) == ("Set", "Due") and it.creator != self.source.system:
            life.is_due_by_hand = True
        life.is_changed |= self.source.sets_level(it) or it.field in ("Requestor", "MergedInto")
        life.is_moved |= it.field == "Queue"

    def person(self, id):
        return None if id == self.source.nobody else self.names["persons"].get(str(id))

    def status(self, text):
        return self.names["statuses"].get(text)

    def of(self, row):
        people = {name: sorted(self.person(id) for id in those)
                  for name, those in zip(ROLES.values(), self.source.people[row.id])}
        life = self.lives[row.id]
        stays = [(self.source.beginnings.status(row.id), row.created)] + [it[:2] for it in life.stays]
        return {
            "queue": self.names["queues"].get(str(row.queue)), "status": self.status(row.status),
            "subject": texts.subject(row.subject, self.source.report), "created": row.created,
            "owner": self.person(row.owner), "level": self.names["levels"].get(row.level),
            "links": sorted(self.links[row.id]), "texts": list(life.texts), **people,
            "statuses": without_empty([(self.status(it), moment) for it, moment in stays]),
        }


class Due:
    """Why RT may count a due moment otherwise than the desk."""

    def __init__(self, source, names, lives):
        self.source, self.plain = source, set(names["plain levels"])
        self.names, self.merged, self.lives = names, set(names["merged"]), lives
        self.moments = {row.id: row.due for row in source.rows("dues")}

    def kind(self, row, is_closed):
        life = self.lives[row.id]
        if row.id in self.merged or is_closed or not row.level:
            return "of merged, done and levelless ones: RT keeps it, the desk has none"
        if life.is_due_by_hand:
            return "set by hand in RT"
        if self.names["levels"].get(row.level) not in self.plain:
            return "of a level with another rule"
        if any(old in self.closed(row) for _, _, old in life.stays):
            return "after a reopening"
        if row.creator not in self.source.beginnings.people_of(row.id)[0]:
            return "filed for another"
        if life.is_changed:
            return "after a change of the level or the requestors"
        if self.is_in_zone_of_queue(row) or life.is_moved:
            return "of a queue with a time zone, or moved from another queue"
        return "plain"

    def closed(self, row):
        told = self.source.configuration["lifecycles"]
        cycle = told.get(self.source.queues[row.queue].lifecycle) or told.get("default") or {}
        return {status.lower() for status in cycle.get("inactive") or ()}

    def is_in_zone_of_queue(self, row):
        """Whether RT counts the hours of a level in the zone of a queue that it isn't the default of."""
        by_queue = self.source.configuration["agreements"].get("QueueDefault") or {}
        default = by_queue.get(self.source.queues[row.queue].name)
        has_zone = isinstance(default, dict) and default.get("Timezone")
        return bool(has_zone and default.get("Level") != row.level)

    def is_closing_minute(self, row, found, wanted):
        """Whether the desk keeps to a closing time that RT moves to the next opening."""
        if found is None or wanted is None or wanted <= found:
            return False
        level = self.source.configuration["agreements"]["Levels"][row.level]
        week = self.source.configuration["hours"].get(level.get("BusinessHours") or "Default") or WEEK
        zone = zoneinfo.ZoneInfo(zone_of(self.source.configuration, row.level))
        there = datetime.datetime.fromtimestamp(found * 60, zone)
        day = week.get(str(there.isoweekday() % 7))
        return bool(day and day.get("Start")) and \
            any(it.endswith(there.strftime("%H:%M")) for it in intervals(day))


class Comparison:
    def __init__(self, source, names, bodies):
        self.source = source
        self.wanted = Wanted(source, names, bodies)
        self.due = Due(source, names, self.wanted.lives)
        self.tickets = {number: id for id, number in self.wanted.numbers.items()}
        self.cut = set(names["cut"])
        self.right, self.wrong = collections.Counter(), collections.Counter()
        self.due_counts, self.dues = collections.Counter(), []

    def tell(self, row, field, wanted, found):
        self.wrong[field] += 1
        if sum(self.wrong.values()) <= SHOWN:
            print(f"ticket {row.id}, {field}: {wanted!r:.200} in RT, {found!r:.200} here")

    def run(self, requests):
        missing = set(self.source.tickets)
        for number, found in requests:
            if number not in self.tickets:
                continue
            row = self.source.tickets[self.tickets[number]]
            missing.discard(row.id)
            wanted = self.wanted.of(row)
            for field in self.fields(row.id):
                if wanted[field] == found[field]:
                    self.right[field] += 1
                else:
                    self.tell(row, field, wanted[field], found[field])
            self.compare_due(row, found)
        for id in sorted(missing):
            self.tell(self.source.tickets[id], "request", "there", "none")

    def fields(self, id):
        return OF_MERGED if id in self.due.merged else OF_CUT if id in self.cut else FIELDS

    def compare_due(self, row, found):
        wanted = self.due.moments.get(row.id)
        kind = self.due.kind(row, row.status in self.due.closed(row))
        is_same = wanted == found["due"]
        if kind == "plain" and not is_same:
            if self.due.is_closing_minute(row, found["due"], wanted):
                kind = "at closing time, which RT moves to the next opening"
            else:
                self.tell(row, "due", wanted, found["due"])
        self.due_counts[kind, is_same] += 1
        if not is_same:
            self.dues.append((row.id, wanted, found["due"], kind))

    def write_dues(self, folder):
        """Each due moment that is another, in RT and here, and why."""
        with owned(os.path.join(folder, "dues.tsv")) as file:
            for id, wanted, found, kind in self.dues:
                file.write(f"{id}\t{day(wanted)}\t{day(found)}\t{kind}\n")

    def end(self):
        print(f"{len(self.source.tickets):,} tickets compared")
        for field in (*FIELDS, "due", "request"):
            if self.right[field] or self.wrong[field]:
                print(f"{field:<10} {self.right[field]:>8,} the same {self.wrong[field]:>6,} others")
        if self.cut:
            print(f"{len(self.cut):,} histories were too long, and are cut")
        print("due moments:")
        for kind in sorted({kind for kind, _ in self.due_counts}):
            same, other = (self.due_counts[kind, is_same] for is_same in (True, False))
            print(f"  {kind}: {same:,} the same, {other:,} others")
        return 1 if self.wrong else 0


def main():
    if len(sys.argv) != 5:
        print(__doc__, file=sys.stderr)
        return 2
    tables, configuration, folder, path = sys.argv[1:]
    place = open_tables(tables)
    with open(configuration, encoding="utf-8") as file:
        source = Source(place, json.load(file), Report())
    with open(os.path.join(folder, "names.json"), encoding="utf-8") as file:
        names = json.load(file)
    rows = read(place, "whole_bodies" if not place.has("bodies") else "bodies")
    bodies = texts.Texts(rows, Report(), Places() if names["files"] else Nowhere())
    comparison = Comparison(source, names, bodies)
    comparison.run(requests_of(path))
    comparison.write_dues(folder)
    return comparison.end()


if __name__ == "__main__":
    sys.exit(main())
