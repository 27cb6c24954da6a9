"""RT's lifecycles as the desk's settings write them."""
import dataclasses

CLASSES = ("initial", "active", "inactive")
# what stands where RT names no status of a class that the desk asks for
INVENTED = {"initial": "rt-waiting", "active": "rt-working", "inactive": "rt-done"}


def quoted(names):
    return "[" + ", ".join(f'"{name}"' for name in names) + "]"


@dataclasses.dataclass
class Lifecycle:
    name: str
    initial: list
    active: list
    inactive: list
    create: list
    on_create: str
    moves: dict
    rights: dict

    def statuses(self):
        return self.initial + self.active + self.inactive

    def class_of(self, status):
        return next((it for it in CLASSES if status in getattr(self, it)), None)

    def add(self, status, told):
        """Keeps a status that stands in the tables and isn't configured here any more: in the class
        that all other lifecycles give it, and else as a live one."""
        if status in self.statuses():
            return False
        known = {it.class_of(status) for it in told} - {None}
        known = known.pop() if len(known) == 1 else "active"
        getattr(self, known if known == "inactive" else "active").append(status)
        return True

    def closing(self):
        """The status of what is closed by the move."""
        if not self.inactive:
            self.inactive.append(INVENTED["inactive"])
        return "deleted" if "deleted" in self.inactive else self.inactive[-1]

    def right_of(self, old, new):
        """The right that a move asks for, by the settings' rule."""
        asked = [f"{old} -> {new}", f"* -> {new}", f"{old} -> *", "* -> *"]
        return next((self.rights[move] for move in asked if move in self.rights), "ModifyTicket")

    def guards_first_move(self):
        """Whether opening a request asks for another right than ModifyTicket. A reply asks for none."""
        return any(self.right_of(old, self.active[0]) != "ModifyTicket" for old in self.initial)

    def text(self, create, moves, rights):
        lines = [f"[lifecycle.{self.name}]", f"initial = {quoted(self.initial)}",
                 f"active = {quoted(self.active)}", f"inactive = {quoted(self.inactive)}",
                 f"create = {quoted(create)}", f'on_create = "{self.on_create}"', "",
                 f"[lifecycle.{self.name}.transitions]"]
        lines += [f"{old} = {quoted(new)}" for old, new in moves.items()]
        if rights:
            lines += ["", f"[lifecycle.{self.name}.rights]"]
            lines += [f'"{move}" = "{right}"' for move, right in rights.items()]
        return "\n".join(lines) + "\n"

    def real(self):
        return self.text(self.create, self.moves, self.rights)

    def open_wide(self):
        """With every move and every filing, since the lines tell what RT did and not what it may."""
        every = self.statuses()
        return self.text(every, {old: [new for new in every if new != old] for old in every}, {})


class Reading:
    """One lifecycle of RT's configuration. name_of gives a status its name in the desk."""

    def __init__(self, told, name_of, report):
        self.told, self.name_of, self.report = told, name_of, report
        self.of_class, seen = {}, set()
        for kind in CLASSES:
            names = [name_of(status) for status in told.get(kind) or []]
            self.of_class[kind] = [it for it in names if not (it in seen or seen.add(it))]
        self.every = [it for kind in CLASSES for it in self.of_class[kind]]

    def known(self, statuses):
        """The names of those that stand in a class."""
        names = [self.name_of(status) for status in statuses or ()]
        kept = [name for name in names if name in self.every]
        self.report.left("status of a lifecycle's moves that it doesn't list", len(names) - len(kept))
        return list(dict.fromkeys(kept))

    def rights(self):
        rights = {}
        for move, right in (self.told.get("rights") or {}).items():
            ends = [end.strip() for end in move.split("->")]
            names = [end if end == "*" else self.name_of(end) for end in ends]
            if len(names) == 2 and all(it == "*" or it in self.every for it in names):
                rights[" -> ".join(names)] = right
            else:
                self.report.left("right of a move that the lifecycle hasn't got")
        return rights

    def moves(self):
        told = dict(self.told.get("transitions") or {})
        create = self.known(told.pop("", []))
        moves = {name: [new for new in self.known(those) if new != name]
                 for old, those in told.items() for name in self.known([old])}
        every = {old: [new for new in self.every if new != old] for old in self.every}
        return create or list(self.every), moves or every

    def on_create(self):
        defaults = dict(self.told.get("defaults") or {})
        chosen = self.known([it] if (it := defaults.pop("on_create", None)) else [])
        self.report.left("lifecycle's defaults beside on_create", len(defaults))
        self.report.left("lifecycle's actions, which were buttons", len(self.told.get("actions") or ()))
        if chosen:
            return chosen[0]
        self.report.other("lifecycle without on_create, by its first status")
        return (self.every or [INVENTED["initial"]])[0]

    def fill(self):
        """Gives each class that the desk asks for a status, where RT names none. Nothing is in it."""
        for kind in ("initial", "active"):
            if not self.of_class[kind]:
                self.of_class[kind] = [INVENTED[kind]]
                self.report.other(f"lifecycle without {kind}, given `{INVENTED[kind]}`")


def lifecycle(name, told, name_of, report):
    reading = Reading(told, name_of, report)
    create, moves = reading.moves()
    on_create, rights = reading.on_create(), reading.rights()
    reading.fill()
    if reading.of_class["active"] == [INVENTED["active"]]:
        moves[INVENTED["active"]] = list(reading.every)
    return Lifecycle(name, *(reading.of_class[kind] for kind in CLASSES),
                     create + [on_create] * (on_create not in create), on_create, moves, rights)
