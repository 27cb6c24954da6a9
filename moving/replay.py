"""Tells RT's transactions as lines of the desk, in their order. It keeps what the desk will be
after each line: a reply moves a status by the desk's own rules, so RT's moves can't simply be
repeated. It answers of each transaction why no line tells it, where none does."""
import collections
import dataclasses

from kinds import INVERSES, KINDS, ROLE_PLACES, ROLES, WRITING, merges, other_end, sets_owner, \
    sets_status, status_in, user_in
from moments import FIRST
from texts import subject
from wording import GAP

# a history has at most 10,000 entries: some are kept for how the ticket stands at the end
LAST_ENTRY = 9_900
ALREADY = "nothing, it stood so already, by the line of a reply or of the filing"
# what RT sets by itself, or what follows from other transactions
SILENT = {("Set", "Starts"), ("Set", "Started"), ("Set", "Told"), ("Set", "Resolved"),
          ("Set", "LastUpdated"), ("SetWatcher", "Owner"), ("EmailRecord", None),
          ("CommentEmailRecord", None)}
LEFT = {("Set", "Subject"): "subject before the last one", ("Set", "Queue"): "queue before the last one"}


@dataclasses.dataclass(slots=True)
class Request:
    """A request as the desk has it. People and the owner are ids of RT's users. told is RT's status,
    and filed the line that files it."""
    number: int
    lifecycle: object
    status: str
    told: str
    level: str
    owner: int
    people: list
    filed: int
    entries: int = 1
    merged: bool = False


def word(text):
    """A text as a word of a line. One that begins as an option stands behind --."""
    for plain, escaped in (("\\", "\\\\"), ('"', '\\"'), ("\n", "\\n"), ("\t", "\\t")):
        text = text.replace(plain, escaped)
    return f'"{text}"'


def after_options(text):
    return ("-- " if text.startswith("-") else "") + word(text)


class Replay:
    def __init__(self, source, names, texts, fates, out, keeps_numbers):
        self.source, self.names, self.texts, self.fates = source, names, texts, fates
        self.out, self.keeps_numbers = out, keeps_numbers
        self.report, self.begun = source.report, source.beginnings
        self.count, self.number, self.requests = 0, 0, {}
        self.links, self.depends = set(), collections.defaultdict(list)
        self.boss, self.cut = source.system, set()
        self.waiting = collections.deque(sorted(source.tickets))
        self.begin = min((row.created for row in source.tickets.values()), default=FIRST)
        self.end = self.begin

    def say(self, moment, user, verb, *words):
        self.count += 1
        self.out.write(" ".join([str(moment), self.names.person(user), verb, *map(str, words)]) + "\n")

    def tell(self, moment, user, verb, request, *words):
        """A line about a request."""
        request.entries += 2 if verb == "correspond" else 1
        self.say(moment, user, verb, request.number, *words)

    def tell_link(self, moment, user, request, kind, other, is_wanted):
        request.entries += 1
        self.say(moment, user, "link", *([] if is_wanted else ["-d"]), request.number, kind, other)

    def run(self):
        for id, name in self.names.queues():
            level = self.names.level(self.source.queue_levels[id])
            lifecycle = self.names.lifecycle(id).name
            self.say(self.begin, self.boss, "queue", name, lifecycle, *([level] if level else []))
        if self.keeps_numbers:
            self.say(self.begin, self.boss, "queue", GAP, GAP)
        for it in self.source.transactions(is_counting=True):
            if it.object == "RT::Ticket" and it.ticket in self.source.tickets:
                self.one(it)
            elif it.object == "RT::Ticket":
                self.fates.became(it, 0, 0, "left out, of a " + self.source.other_tickets.get(
                    it.ticket, "ticket that isn't there"))
            else:
                self.fates.became(it, 0, 0, "left out, of no ticket")
        self.texts.skip()
        self.file_up_to(self.source.last_number)
        self.settle()

    def one(self, it):
        self.end = max(self.end, it.created)
        self.file_up_to(it.ticket)
        if it.type in ("AddLink", "DeleteLink"):
            self.file_up_to(self.carried_end(it))
        before = self.count
        fate = self.transaction(it)
        if it.type == "Create" and self.count == before:
            self.fates.became(it, self.requests[it.ticket].filed, 1, fate)
        else:
            self.fates.became(it, before + 1, self.count - before, fate)

    def carried_end(self, it):
        """The other end of a link: RT tells of it there before that ticket's own first transaction."""
        other = other_end(it.new if it.type == "AddLink" else it.old)
        return other if other in self.source.tickets else 0

    # ---- filing

    def file_up_to(self, ticket):
        """Files each ticket up to this number, and something for each number between them."""
        while self.waiting and self.waiting[0] <= ticket:
            row = self.source.tickets[self.waiting.popleft()]
            self.fill(row.id, row.created)
            self.file(row)
        if ticket >= self.source.last_number and not self.waiting:
            self.fill(ticket + 1, self.end)

    def fill(self, number, moment):
        while self.keeps_numbers and self.number + 1 < number:
            self.number += 1
            self.say(moment, self.boss, "create", GAP, word("not carried over"))
            self.report.other(f"number kept by a request that says nothing (queue {GAP})")

    def file(self, row):
        moment, lifecycle = row.created, self.names.lifecycle(row.queue)
        told = self.begun.status(row.id)
        status = self.known(lifecycle, told)
        self.number += 1
        first = self.begun.people_of(row.id)
        requestors = sorted(first[0])
        option = [] if status == lifecycle.on_create else ["--status", status]
        self.say(moment, row.creator, "create", *option, self.names.queue(row.queue),
                 after_options(subject(row.subject, self.report)), *map(self.names.person, requestors))
        people = [first[0] or frozenset((row.creator,)), frozenset(), frozenset()]
        request = Request(self.number, lifecycle, status, told,
                          self.names.level(self.source.queue_levels[row.queue]), self.source.nobody, people,
                          self.count)
        self.requests[row.id] = request
        for role, those in zip(ROLES, first):
            self.have_people(moment, row.creator, request, role, those, "people at the filing")
        self.have_level(moment, row.creator, request, self.begun.level(row.id), "level at the filing")
        self.have_owner(moment, row.creator, request, self.begun.owner(row.id), "owner at the filing")

    def first_text(self, it, request):
        """The desk's requests have no text: RT's becomes the requestor's reply, which moves nothing."""
        row = self.source.tickets[it.ticket]
        parts = self.texts.of(it.ticket, it.id, False)
        for text in parts:
            requestors = sorted(request.people[0])
            if request.status in request.lifecycle.inactive or not requestors:
                self.tell(row.created, row.creator, "comment", request, after_options(text))
                self.report.other("first text as a comment: nobody asked, or it was filed as done", 1, it.ticket)
                continue
            who = row.creator if row.creator in requestors else requestors[0]
            self.report.other("first text as a reply" if who == row.creator
                              else "first text as the requestor's reply, which another had filed")
            self.reply(row.created, who, request, text)

    # ---- one thing at a time, and what the desk makes of it

    def known(self, lifecycle, status):
        """The name of a status in a lifecycle, which gets it if it lacks it."""
        name = self.names.status(status)
        if lifecycle.add(name, self.names.cycles.values()):
            self.report.other(f"status that lifecycle {lifecycle.name} lacks, kept as"
                              f" {'done' if name in lifecycle.inactive else 'live'}: {name}")
        return name

    def reply(self, moment, user, request, text):
        self.tell(moment, user, "correspond", request, after_options(text))
        lifecycle, is_asking = request.lifecycle, user in request.people[0]
        if request.status in lifecycle.inactive or request.status in lifecycle.initial and not is_asking:
            request.status = lifecycle.active[0]

    def have_status(self, moment, user, request, status, why=None):
        """Moves a request, over dependencies that are open too: RT asks for less there."""
        if request.status == status:
            return ALREADY
        open_links = self.open_dependencies(request) if status in request.lifecycle.inactive else []
        for other in open_links:
            self.tell_link(moment, user, request, "DependsOn", other, False)
            self.report.added("link taken away for a move that RT allowed, and put again")
        self.tell(moment, user, "status", request, status)
        for other in open_links:
            self.tell_link(moment, user, request, "DependsOn", other, True)
        request.status = status
        if why:
            self.report.added(why)
        return None

    def open_dependencies(self, request):
        others = self.depends.get(request.number, ())
        return sorted(it.number for it in others if it.status not in it.lifecycle.inactive)

    def have_people(self, moment, user, request, role, wanted, why=None):
        place = ROLE_PLACES[role]
        has = request.people[place]
        if has == wanted:
            return ALREADY
        for verb, those in (("watch", wanted - has), ("unwatch", has - wanted)):
            for person in sorted(those):
                self.tell(moment, user, verb, request, ROLES[role], self.names.person(person))
                if why:
                    self.report.added(why)
        request.people[place] = wanted
        return None

    def have_level(self, moment, user, request, told, why=None):
        level = self.names.level(told)
        if level == request.level:
            return ALREADY
        self.tell(moment, user, "level", request, *([level] if level else []))
        request.level = level
        if why:
            self.report.added(why)
        return None

    def have_owner(self, moment, user, request, owner, why=None):
        old, nobody = request.owner, self.source.nobody
        if owner == old:
            return ALREADY
        if owner == nobody and user != old:
            self.tell(moment, user, "steal", request)
            self.report.added("steal, for an untake by another than the owner")
        if owner == nobody:
            self.tell(moment, user, "untake", request)
        elif owner == user:
            self.tell(moment, user, "take" if old == nobody else "steal", request)
        else:
            self.tell(moment, user, "give", request, self.names.person(owner))
        request.owner = owner
        if why:
            self.report.added(why)
        return None

    def have_link(self, moment, user, link, is_wanted=True, why=None):
        base, kind, target = link
        if base not in self.source.tickets or target not in self.source.tickets or base == target:
            self.report.left("link to what isn't carried, or to itself", 1, base)
            return "left out, a link to what isn't carried, or to itself"
        if (link in self.links) == is_wanted:
            return ALREADY
        request, other = self.requests[base], self.requests[target]
        (self.links.add if is_wanted else self.links.discard)(link)
        if kind == "DependsOn":
            ends = self.depends[request.number]
            (ends.append if is_wanted else ends.remove)(other)
        self.tell_link(moment, user, request, kind, other.number, is_wanted)
        if why:
            self.report.added(why)
        return None

    # ---- transactions

    def transaction(self, it):
        """Says what a transaction did. Where it says nothing, it answers why."""
        request, moment = self.requests[it.ticket], it.created
        if request.entries > LAST_ENTRY:
            self.cut.add(it.ticket)
            self.report.left(f"transaction behind the first {LAST_ENTRY:,} entries of a history", 1, it.ticket)
            return "left out, since its ticket's history is too long"
        if it.type in WRITING:
            return self.written(it, request, moment)
        if it.type == "Create":
            return self.first_text(it, request)
        if sets_status(it):
            request.told = status_in(it.new)
            return self.have_status(moment, it.creator, request, self.known(request.lifecycle, request.told))
        if sets_owner(it):
            owner = user_in(it.new)
            owner = owner if owner in self.source.users else self.source.nobody
            return self.have_owner(moment, it.creator, request, owner)
        if self.source.sets_level(it):
            return self.have_level(moment, it.creator, request, it.new)
        if it.type in ("AddWatcher", "DelWatcher") and it.field in ROLES:
            return self.watched(it, request, moment)
        if it.type in ("AddLink", "DeleteLink"):
            return self.linked(it, request, moment)
        return self.passed_over(it)

    def written(self, it, request, moment):
        parts = self.texts.of(it.ticket, it.id, True)
        for text in parts:
            if it.type == "Comment":
                self.tell(moment, it.creator, "comment", request, after_options(text))
            else:
                self.reply(moment, it.creator, request, text)
        if it.type == "Correspond":
            status = self.known(request.lifecycle, self.begun.moved.get(it.id, request.told))
            self.have_status(moment, it.creator, request, status,
                             "status put right after a reply, which the desk judges otherwise")

    def watched(self, it, request, moment):
        is_new = it.type == "AddWatcher"
        user = user_in(it.new if is_new else it.old)
        if user not in self.source.users:
            return "left out, a group that watches a ticket, or a user that is gone"
        has = request.people[ROLE_PLACES[it.field]]
        return self.have_people(moment, it.creator, request, it.field,
                                has | {user} if is_new else has - {user})

    def linked(self, it, request, moment):
        is_new, other = it.type == "AddLink", other_end(it.new if it.type == "AddLink" else it.old)
        if it.field == "MergedInto":
            return self.merged(it, request, moment, other) if merges(it) else \
                "nothing, the line of the other end of its merge"
        if other is None:
            self.report.left("link to an address", 1, it.ticket)
            return "left out, a link to an address"
        if it.field in KINDS:
            return self.have_link(moment, it.creator, (it.ticket, it.field, other), is_new)
        if it.field in INVERSES:
            return self.have_link(moment, it.creator, (other, INVERSES[it.field], it.ticket), is_new)
        self.report.left(f"link of the kind {it.field}", 1, it.ticket)
        return "left out, a link of another kind"

    def merged(self, it, request, moment, into):
        """The desk merges nothing: the ticket stays for itself, closed, and refers to the other."""
        self.report.other("merged ticket, which stands closed and refers to the other", 1, it.ticket)
        self.have_link(moment, it.creator, (it.ticket, "RefersTo", into))
        request.merged = True
        if into in self.requests:
            other = self.requests[into]
            self.tell(moment, it.creator, "comment", request, word(f"merged into {other.number}"))
            for role, place in ROLE_PLACES.items():
                both = self.source.people[it.ticket][place] & self.source.people[into][place]
                self.have_people(moment, it.creator, other, role, other.people[place] | both)
        self.have_status(moment, it.creator, request, request.lifecycle.closing())
        return "nothing, it was merged into what isn't carried"

    def passed_over(self, it):
        kind = (it.type, it.field or None)
        if kind in SILENT or kind == ("Set", "Due") and it.creator == self.source.system:
            return "nothing, RT wrote down what follows from the others"
        told = "due moment set by hand" if kind == ("Set", "Due") else LEFT.get(kind)
        self.report.left(told or "transaction that the desk has no word for", 1, it.ticket)
        return f"left out, {told or 'the desk has no word for it'}"

    # ---- what RT did without a transaction

    def settle(self):
        """Links given at a filing, what a merge moved, and whatever RT's histories don't tell."""
        system = self.source.system
        for id, row in self.source.tickets.items():
            if row.into not in (None, 0, id) and not self.requests[id].merged:
                self.merged_silently(id, row.into)
        self.settle_links({id for id, it in self.requests.items() if it.merged})
        for id, request in self.requests.items():
            row = self.source.tickets[id]
            for role, wanted in zip(ROLES, self.source.people[id]):
                self.have_people(self.end, system, request, role, wanted, "people at the end")
            if not request.merged:
                status = self.known(request.lifecycle, row.status)
                self.have_status(self.end, system, request, status, "status at the end")
                self.have_owner(self.end, system, request, row.owner, "owner at the end")
                self.have_level(self.end, system, request, row.level, "level at the end")

    def merged_silently(self, id, into):
        """A merge that only the ticket's row tells."""
        request = self.requests[id]
        request.merged = True
        self.report.other("merged ticket, which stands closed and refers to the other", 1, id)
        self.have_link(self.end, self.boss, (id, "RefersTo", into), True, "link of a merge")
        self.have_status(self.end, self.boss, request, request.lifecycle.closing(), "status of a merge")

    def settle_links(self, merged):
        wanted = {(row.base, row.kind, row.target): row for row in self.source.links
                  if row.kind in KINDS and row.base != row.target
                  and row.base in self.requests and row.target in self.requests}
        for link in sorted(self.links - set(wanted)):
            if link[0] not in merged:
                self.have_link(self.end, self.boss, link, False, "link that a merge took away")
        for link in sorted(set(wanted) - self.links):
            row = wanted[link]
            moment = self.source.moment(row.created, self.end)
            self.have_link(moment, row.creator or self.boss, link, True, "link of a filing or a merge")
