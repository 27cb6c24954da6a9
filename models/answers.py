"""The texts of answers and refusals, by docs/desk.md."""
import re

from hours import moment_text
from rules import Refused

ESCAPED = {"\\": "\\\\", "\n": "\\n", "\t": "\\t"}
INVERSES = [("DependsOn", "DependedOnBy"), ("MemberOf", "HasMember"), ("RefersTo", "ReferredToBy")]


def outcome_text(desk, at, caller, name, words):
    """What a command is answered, or its refusal, as it is printed."""
    try:
        answer = desk.ask(at, caller, name, words)
    except Refused as refusal:
        right = f" {refusal.right}" if refusal.right else ""
        return f"refused {refusal.number} {refusal.name}{right}\n"
    return "".join(f"{line}\n" for line in lines_of(name, answer))


def lines_of(name, answer):
    texts = {"queues": queue_lines, "show": show_lines, "ls": list_lines, "history": entry_lines,
             "overdue": late_lines, "workload": load_lines}
    if name in texts:
        return texts[name](answer)
    return ["ok" if answer is None else f"request {answer}"]


def due_text(due):
    return "-" if due is None else moment_text(due)


def list_text(words):
    return " ".join(map(str, sorted(words))) or "-"


def owner_text(owner):
    return "Nobody" if owner is None else owner


def queue_lines(queues):
    rows = [("queue", "lifecycle", "level")]
    rows += [(it.name, it.lifecycle.name, it.level or "-") for it in queues]
    return [f"{name:<20} {cycle:<20} {level}" for name, cycle, level in rows]


def show_lines(shown):
    request = shown.request
    lines = [
        f"id: {request.number}", f"queue: {request.queue.name}", f"subject: {request.subject}",
        f"status: {request.status}", f"owner: {owner_text(request.owner)}",
        f"requestors: {list_text(request.roles['requestor'])}",
        f"cc: {list_text(request.roles['cc'])}", f"admincc: {list_text(request.roles['admincc'])}",
        f"level: {request.level or '-'}", f"created: {moment_text(request.created)}",
        f"due: {due_text(shown.due)}"]
    for kind, inverse in INVERSES:
        lines.append(f"{kind}: {list_text(it.target for it in shown.linked if it.kind == kind)}")
        lines.append(
            f"{inverse}: {list_text(it.source for it in shown.linking if it.kind == kind)}")
    return lines


def list_lines(lines):
    rows = [("id", "status", "owner", "due", "subject")]
    rows += [(it.request.number, it.request.status, owner_text(it.request.owner), due_text(it.due),
              it.request.subject) for it in lines]
    return [f"{number:>7} {status:<20} {owner:<20} {due:<16} {subject}"
            for number, status, owner, due, subject in rows]


def late_lines(lines):
    rows = [("id", "queue", "owner", "due", "late")]
    rows += [(it.request.number, it.request.queue.name, owner_text(it.request.owner),
              due_text(it.due), it.late) for it in lines]
    return [f"{number:>7} {queue:<20} {owner:<20} {due:<16} {late:>8}"
            for number, queue, owner, due, late in rows]


def load_lines(loads):
    rows = [("owner", "open", "overdue")]
    rows += [(owner_text(it.owner), it.live, it.overdue) for it in loads]
    rows.append(("Total", sum(it.live for it in loads), sum(it.overdue for it in loads)))
    return [f"{owner:<20} {live:>7} {overdue:>7}" for owner, live, overdue in rows]


def entry_lines(entries):
    return [f"{it.number:>5} {moment_text(it.moment)} {it.actor:<20} {entry_text(it)}"
            for it in entries]


def entry_text(entry):
    words = [entry.kind, entry.head, escaped(entry.body)]
    return " ".join(word for word in words if word)


def escaped(text):
    return re.sub(r"[\\\n\t]", lambda it: ESCAPED[it.group()], text)
