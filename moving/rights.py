"""RT's people, groups and grants as the desk's settings write them."""
import collections

from lifecycles import quoted

RIGHTS = set("""SeeQueue CreateTicket AdminQueue ShowTicket ShowTicketComments ReplyToTicket
CommentOnTicket ModifyTicket DeleteTicket OwnTicket TakeTicket StealTicket ReassignTicket Watch
WatchAsAdminCc SuperUser""".split())
# what RT allows to whoever holds one of these
IMPLIED = {
    "ModifyTicket": {"ReplyToTicket", "CommentOnTicket", "TakeTicket", "StealTicket", "ReassignTicket"},
    "ReassignTicket": {"TakeTicket", "StealTicket"},
}
ROLES = {"Owner": "owner", "Requestor": "requestor", "Cc": "cc", "AdminCc": "admincc"}


class Rights:
    """Grants, and the groups that they need. persons collects who has to be listed."""

    def __init__(self, source, wording):
        self.source, self.report = source, source.report
        self.person_of, self.queue_of = wording.person, wording.queue
        self.group_names = wording.groups
        self.own_rights = {right for it in wording.cycles.values() for right in it.rights.values()}
        self.guarded = {name for id, name in wording.queues() if wording.lifecycle(id).guards_first_move()}
        self.grants, self.of_role = collections.defaultdict(set), collections.defaultdict(set)
        self.groups, self.disabled_members = {}, set()
        for row in source.groups.values():
            if row.domain == "UserDefined" and not row.disabled:
                self.group_names.of(row.id, row.name)
        for row in source.rights:
            self.grant(row)
        self.watchers_of_queues()
        for row in source.groups.values():
            if row.domain == "UserDefined" and not row.disabled:
                self.groups[self.group_names.of(row.id, row.name)] = self.members(row.id)
        self.report.left("disabled user as a member of a group", len(self.disabled_members))

    def grant(self, row):
        if row.object not in ("RT::System", "RT::Queue"):
            return self.report.left(f"right on {row.object}")
        queue = self.queue_of(row.id) if row.object == "RT::Queue" else None
        if row.object == "RT::Queue" and queue is None:
            return self.report.left("right on a queue that isn't carried")
        if row.right not in RIGHTS | self.own_rights:
            return self.report.left(f"right {row.right}")
        rights = {row.right} | IMPLIED.get(row.right, set())
        if row.right in IMPLIED:
            self.report.other(f"{row.right}, with the {len(rights) - 1} rights that it stands for in RT")
        if row.right == "ModifyTicket" and queue in self.guarded:
            self.report.other("of these on a queue whose first move is guarded, but not from a reply")
        if row.kind in ROLES:
            self.of_role[queue, row.kind] |= rights
        subject = self.subject(row)
        if subject:
            self.grants[subject, queue] |= rights
        return None

    def subject(self, row):
        """Whom a right of RT is for, in the settings' words."""
        if row.kind in ROLES:
            return f"role:{ROLES[row.kind]}"
        group = self.source.groups.get(row.principal)
        if group is None or group.disabled:
            return self.report.left("right of a group that is gone or disabled")
        if group.domain == "ACLEquivalence":
            return self.user(group.instance)
        if group.domain == "SystemInternal" and group.name == "Everyone":
            return "everyone"
        if group.domain == "SystemInternal":
            name = self.group_names.of(group.id, group.name)
            self.groups[name] = self.members(group.id)
            return f"group:{name}"
        if group.domain == "UserDefined":
            return f"group:{self.group_names.of(group.id, group.name)}"
        if (group.name or "").startswith("RT::CustomRole"):
            return self.report.left("right of a custom role")
        return self.report.left(f"right of {group.domain}")

    def user(self, id):
        """A user as a subject, but for RT's own two and those who may do nothing any more."""
        if id in (self.source.system, self.source.nobody):
            return None
        if id not in self.source.users or self.source.users[id].disabled:
            return self.report.left("right of a user who is disabled or gone")
        return f"person:{self.person_of(id)}"

    def watchers_of_queues(self):
        """In RT a queue's watchers have the role on each of its tickets: here a group has its rights."""
        for row in list(self.source.groups.values()):
            queue = self.queue_of(row.instance) if row.domain == "RT::Queue-Role" else None
            if queue is None or row.name not in ROLES or not self.members(row.id):
                continue
            name = self.group_names.of(row.id, f"{queue[:11]}-{row.name}")
            self.groups[name] = self.members(row.id)
            self.report.other("watchers of a queue, made a group with the role's rights")
            rights = self.of_role[queue, row.name] | self.of_role[None, row.name]
            if rights:
                self.grants[f"group:{name}", queue] |= rights

    def members(self, group):
        names = []
        for member in self.source.members.get(group, ()):
            row = self.source.groups.get(member)
            if member in self.source.users:
                if self.source.users[member].disabled:
                    self.disabled_members.add((group, member))
                elif member not in (self.source.system, self.source.nobody):
                    names.append(self.person_of(member))
            elif row and row.domain == "UserDefined" and not row.disabled:
                names.append(self.group_names.of(row.id, row.name))
        return names

    def groups_text(self):
        lines = [f"{name} = {quoted(those)}" for name, those in sorted(self.groups.items())]
        return "\n".join(["[groups]", *lines, ""])

    def grants_text(self):
        lines = []
        by_name = sorted(self.grants.items(), key=lambda it: (it[0][0], it[0][1] or ""))
        for (subject, queue), rights in by_name:
            lines += ["[[grant]]", f'to = "{subject}"']
            lines += [f'queue = "{queue}"'] if queue else []
            lines += [f"rights = {quoted(sorted(rights))}", ""]
        return "\n".join(lines)
