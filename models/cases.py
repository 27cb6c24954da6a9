"""Runs the cases of the kinds `script`, `list`, `one` and `limits` on the model of the rules."""
import os

import answers
import rules
import settings
import tables
import words
from stored import asked, expanded, lines_of, path_of

KINDS = ["script", "list", "one", "limits"]
MOST_INPUT = 1048576


class LeftAlone(Exception):
    """A case that the model doesn't judge, with the reason."""


class Case:
    def __init__(self, name):
        self.name = name
        self.parts = {part: expanded(text) for part, text in asked(name).items()}

    def text(self, part):
        return self.parts.get(part, b"").decode()

    @property
    def wanted(self):
        return self.parts["wanted"]


def all_cases():
    return [Case(f"{kind}/{name}") for kind in KINDS
            for name in sorted(os.listdir(path_of(kind)))]


def told_of(case):
    """What the model prints of a case, or raises why it leaves the case alone."""
    told = run(case).encode()
    return ends_of(told, int(case.text("ends"))) if "ends" in case.parts else told


def run(case):
    if "lots" in case.parts:
        raise LeftAlone("lists by lot are compared by models/lots")
    if case.wanted.startswith(b"settings: ") or b"\nsettings: " in case.wanted:
        raise LeftAlone("settings with a fault")
    if "streams" in case.parts:
        raise LeftAlone("streams that fail, and tables that are let go")
    if "script" in case.parts:
        return script_told(case.parts["script"])
    if "list" in case.parts:
        return list_told(case)
    return single_told(case)


def ends_of(told, most):
    """How many lines there are and their sum, and so many at the front and at the end."""
    lines, total = lines_of(told.decode()), 0
    for byte in told:
        total = (total * 31 + byte) % 4294967296
    shown = lines[:most] + lines[max(len(lines) - most, most):]
    return "".join(f"{line}\n" for line in [f"{len(lines)} lines, sum {total}", *shown]).encode()


def script_told(script):
    """What a script prints, and its status."""
    if len(script) > MOST_INPUT:
        return "input: too long\nstatus 4\n"
    head, lines = parts_of(script)
    if lines is None:
        return "input: no %% line\nstatus 4\n"
    try:
        lines = [line.decode() for line in lines]
    except UnicodeDecodeError:
        return "input: not UTF-8\nstatus 4\n"
    desk = rules.Desk(settings.Settings(head.decode()))
    return "".join(line_told(desk, line) for line in lines if is_asked(line)) + "status 0\n"


def parts_of(script):
    """The settings of a script and its lines, which are None without a marker."""
    *ended, last = script.split(b"\n")
    lines = [line[:-1] if line.endswith(b"\r") else line for line in ended] + [last] * bool(last)
    if b"%%" not in lines:
        return script, None
    place = lines.index(b"%%")
    return b"\n".join(lines[:place]), lines[place + 1:]


def is_asked(line):
    return line != "" and not line.lstrip(" ").startswith("#")


def line_told(desk, line):
    try:
        at, caller, name, named = words.asked_by(line)
    except words.BadWords:
        return "bad words\n"
    return answers.outcome_text(desk, at, caller, name, named)


def list_told(case):
    """What a desk over tables answers to a list, or why the settings aren't attached to them."""
    text, _, commands = case.text("list").partition("%%\n")
    known = settings.Settings(text)
    desk = desk_over(case, known)
    if not desk.is_known():
        counts = [("queues", len(desk.by_name)), ("requests", len(desk.requests)),
                  ("watchers", sum(len(persons) for it in desk.requests
                                   for persons in it.roles.values())),
                  ("entries of 1", len(desk.request_of(1).entries))]
        return "attach: 2 UnknownName\n" + "".join(f"{what}: {n}\n" for what, n in counts)
    if "trials" in case.parts:
        return trials_told(case, desk, commands)
    told = f"attach: ok, room for {known.max_requests} requests\n"
    told += "".join(line_told(desk, line) for line in lines_of(commands))
    return told + tables.answered(desk, case.text("query"))


def desk_over(case, known):
    try:
        return tables.desk_of(case.text("tables"), known) if "tables" in case.parts \
            else rules.Desk(known)
    except tables.NoDesk:
        raise LeftAlone("tables that stand for no desk") from None


def trials_told(case, desk, commands):
    """The due moments in the tables and those shown to a person, after each command."""
    trial, _, person = case.text("trials").rstrip("\n").partition(" ")
    if trial != "dues" or "\n" in person:
        raise LeftAlone("limits on the steps of statements")
    told = f"{trial} {person}:\n"
    for line in lines_of(commands):
        line_told(desk, line)
        at = line.split(" ")[0]
        for request in desk.requests:
            shown = line_told(desk, f"{at} {person} show {request.number}").split("\ndue: ")[-1]
            due = answers.due_text(desk.due(request))
            told += f"  {request.number}: {due}, shown {lines_of(shown)[0]}\n"
    return told


def single_told(case):
    """What commands print that are run one at a time, each with its status."""
    known, told = settings.Settings(case.text("settings")), ""
    desk = desk_over(case, known)
    for line in lines_of(case.text("commands")):
        status, text = 4, "attach: 2 UnknownName\n"
        if desk.is_known():
            text = line_told(desk, line)
            status = 2 if text == "bad words\n" else 1 if text.startswith("refused ") else 0
        told += f"{line}: status {status}, failed false\n{text}\n"
    return told
