"""What settings without a fault say of people, lifecycles and levels, by docs/settings.md."""
import tomllib

from hours import Calendar, Level

DEFAULT_LIFECYCLE = {
    "initial": ["new"], "active": ["open", "stalled"],
    "inactive": ["resolved", "rejected", "deleted"],
    "create": ["new", "open", "resolved"], "on_create": "new"}
DEFAULT_CALENDAR = {day: ["09:00-18:00"] for day in ("mon", "tue", "wed", "thu", "fri")}


class Lifecycle:
    def __init__(self, name, table):
        self.name = name
        self.initial, self.active = table.get("initial", []), table.get("active", [])
        self.inactive = table.get("inactive", [])
        self.statuses = self.initial + self.active + self.inactive
        self.create, self.on_create = table.get("create", []), table.get("on_create")
        moves = table.get("transitions", {})
        self.moves = {(old, new) for old, those in moves.items() for new in those}
        self.rights = table.get("rights", {})

    def right_of(self, old, new):
        """The right that a move asks for."""
        usual = "DeleteTicket" if new == "deleted" else "ModifyTicket"
        for pair in (f"{old} -> {new}", f"* -> {new}", f"{old} -> *", "* -> *"):
            if pair in self.rights:
                return self.rights[pair]
        return usual

    def reopening_of(self, status):
        """The status to which a reply moves from that one, or None."""
        return next((new for new in self.active if (status, new) in self.moves), None)


def default_lifecycle():
    cycle = Lifecycle("default", DEFAULT_LIFECYCLE)
    cycle.moves = {(old, new) for old in cycle.statuses for new in cycle.statuses if old != new}
    return cycle


class Settings:
    def __init__(self, text):
        table = tomllib.loads(text)
        self.max_requests = table.get("max_requests", 1000000)
        self.max_entries = table.get("max_entries", 10000)
        self.groups, self.tokens = table.get("groups", {}), table.get("tokens", {})
        if table.keys() & {"persons", "groups", "grant"}:
            self.persons = set(table.get("persons", []))
            self.grants = [(right, grant["to"], grant.get("queue"))
                           for grant in table.get("grant", []) for right in grant["rights"]]
        else:
            self.persons, self.grants = {"root"}, [("SuperUser", "everyone", None)]
        self.lifecycles = {"default": default_lifecycle()}
        for name, cycle in table.get("lifecycle", {}).items():
            self.lifecycles[name] = Lifecycle(name, cycle)
        calendars = {"default": DEFAULT_CALENDAR, **table.get("calendar", {})}
        self.levels = {name: Level(it, Calendar(calendars[it["calendar"]]))
                       for name, it in table.get("level", {}).items()}

    def is_member(self, person, group):
        """Whether a group holds a person, itself or through groups that it holds."""
        reached, found = set(), [group]
        for name in found:
            for member in self.groups.get(name, []):
                if member not in reached:
                    reached.add(member)
                    found.append(member)
        return person in reached

    def holds(self, person, right, queue, roles=()):
        """Whether a person holds a right in a queue, with those roles."""
        if person not in self.persons:
            return False
        return any(
            granted in (right, "SuperUser") and where in (None, queue)
            and self.is_for(person, roles, subject) for granted, subject, where in self.grants)

    def is_for(self, person, roles, subject):
        kind, _, name = subject.partition(":")
        if kind == "everyone":
            return True
        if kind == "person":
            return person == name
        if kind == "group":
            return self.is_member(person, name)
        return name in roles
