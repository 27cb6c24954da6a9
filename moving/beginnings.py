"""What each ticket was when it was filed. Its first transactions tell, by what they took away; what
none of them tells was then as it is now."""
from kinds import ROLES, ROLE_PLACES, merges, sets_owner, sets_status, status_in, user_in

LETTERS = ("EmailRecord", "CommentEmailRecord")
LOOKED_AT = 3    # so many transactions behind a reply may be RT's rule at work on it


class Beginnings:
    def __init__(self, of, transactions):
        self.of = of
        self.statuses, self.levels, self.owners, self.people = {}, {}, {}, {}
        # the status to which RT's own rule moved a ticket, by the reply
        self.moved, self.waiting = {}, {}
        self.merged = []
        for it in transactions:
            if it.object == "RT::Ticket" and it.ticket in of.tickets:
                self.add(it)
        self.waiting.clear()
        self.without_merged()

    def add(self, it):
        self.look_behind_reply(it)
        if sets_status(it):
            self.statuses.setdefault(it.ticket, status_in(it.old))
        elif self.of.sets_level(it):
            self.levels.setdefault(it.ticket, it.old)
        elif sets_owner(it):
            self.owners.setdefault(it.ticket, user_in(it.old))
        elif it.type in ("AddWatcher", "DelWatcher") and it.field in ROLES:
            is_new = it.type == "AddWatcher"
            user = user_in(it.new if is_new else it.old)
            if user in self.of.users:
                self.people.setdefault(it.ticket, {}).setdefault((it.field, user), not is_new)
        elif merges(it) in self.of.tickets:
            self.merged.append((it.ticket, merges(it)))

    def look_behind_reply(self, it):
        """Finds the move that RT's rule made of a reply: by RT itself, at once. The letters that it sent
        meanwhile don't count."""
        if it.type in LETTERS:
            return
        reply = self.waiting.pop(it.ticket, None)
        if it.type == "Correspond":
            self.waiting[it.ticket] = (it.id, it.created, LOOKED_AT)
        elif reply is None or it.type == "Comment":
            return
        elif sets_status(it) and it.creator == self.of.system:
            if it.created - reply[1] <= 1:
                self.moved[reply[0]] = status_in(it.new)
        elif reply[2] > 1:
            self.waiting[it.ticket] = (*reply[:2], reply[2] - 1)

    def status(self, id):
        return self.statuses.get(id, self.of.tickets[id].status)

    def level(self, id):
        return self.levels[id] if id in self.levels else self.of.tickets[id].level

    def owner(self, id):
        owner = self.owners.get(id, self.of.tickets[id].owner)
        return owner if owner in self.of.users else self.of.nobody

    def without_merged(self):
        """Those who came into a ticket by a merge stand there without a transaction: not at first."""
        for id, into in self.merged:
            creator = self.of.tickets[into].creator
            for role, place in ROLE_PLACES.items():
                for user in self.of.people[id][place] - {creator}:
                    self.people.setdefault(into, {})[role, user] = False

    def people_of(self, id):
        """Three sets in the order of the roles."""
        changes = self.people.get(id)
        if not changes:
            return self.of.people[id]
        found = [set(those) for those in self.of.people[id]]
        for (role, user), was_there in changes.items():
            (found[ROLE_PLACES[role]].add if was_there
             else found[ROLE_PLACES[role]].discard)(user)
        return tuple(map(frozenset, found))
