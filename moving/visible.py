#!/usr/bin/env python3
"""Compares who may see which ticket, and the comments of it, in RT and in the desk that was moved. The
status is 1 where somebody sees here what RT doesn't show him.

    visible.py SEEN OUT FILE

SEEN is what moving/visible.pl prints, OUT that of from_rt.py, and FILE the desk's. The desk is asked by
the settings that hold from the move on. LOAD names the program that loads lines, else it is
bin/desk_load."""
import collections
import json
import os
import re
import shutil
import subprocess
import sys
import tempfile

TOP = os.path.dirname(os.path.dirname(os.path.abspath(__file__)))
LOAD = os.environ.get("LOAD", os.path.join(TOP, "bin", "desk_load"))
MOMENT = 60_000_000    # a minute behind all that happened
ANSWER = re.compile(r"(\d+): (refused \d+ \w+|id: |)")
COMMENT = re.compile(r"(?:\d+: )?\s*\d+ \d{4}-\d\d-\d\d \d\d:\d\d \S+ +comment ")
SHOWN = 20


def answers(file, settings, lines):
    """What the desk answers to each line, as its lines of text."""
    with tempfile.TemporaryDirectory() as room:
        copy = os.path.join(room, "desk.db")
        shutil.copy(file, copy)
        done = subprocess.run([LOAD, "--db", copy, "--settings", settings, "--all"], stdout=subprocess.PIPE,
                              input="".join(lines).encode(), stderr=subprocess.DEVNULL)
    found, number = collections.defaultdict(list), 0
    for line in done.stdout.decode().split("\n"):
        begin = re.match(r"(\d+): ", line)
        if begin and int(begin[1]) == number + 1:
            number += 1
        found[number].append(line)
    if number != len(lines):
        sys.exit(f"visible.py: the desk answered {number:,} of {len(lines):,} lines")
    return found


class Seeing:
    def __init__(self, seen, names, file, settings):
        self.seen, self.persons = seen, {int(id): name for id, name in names["persons"].items()}
        merged = set(names["merged"])
        self.numbers = {int(id): number for id, number in names["numbers"].items() if int(id) not in merged}
        self.file, self.settings = file, settings
        self.counts, self.wrong = collections.Counter(), 0

    def compare(self, users, right, command, is_seen):
        pairs = [(user, ticket) for user in users for ticket in self.numbers]
        lines = [f"{MOMENT} {self.persons[user]} {command} {self.numbers[ticket]}\n" for user, ticket in pairs]
        told = answers(self.file, self.settings, lines)
        rt = {int(user): set(those) for user, those in self.seen[right].items()}
        for place, (user, ticket) in enumerate(pairs, 1):
            here, there = is_seen(told[place]), ticket in rt.get(user, ())
            self.counts[right, here, there] += 1
            if here and not there:
                self.wrong += 1
                if self.wrong <= SHOWN:
                    print(f"{self.persons[user]} sees ticket {ticket} by {right} here, and not in RT")


def shows(lines):
    return "refused" not in lines[0].split(": ", 1)[1][:8]


def shows_comments(lines):
    return any(COMMENT.match(line) for line in lines)


def main():
    if len(sys.argv) != 4:
        print(__doc__, file=sys.stderr)
        return 2
    path, out, file = sys.argv[1:]
    with open(path, encoding="utf-8") as source, open(os.path.join(out, "names.json"), encoding="utf-8") as named:
        seeing = Seeing(json.load(source), json.load(named), file, os.path.join(out, "settings.toml"))
    with open(os.path.join(out, "settings.toml"), encoding="utf-8") as settings:
        able = set(re.findall(r'^[0-9a-f]{32} = "([^"]+)"$', settings.read(), re.MULTILINE))
    users = [id for id, name in seeing.persons.items() if name in able]
    seeing.compare(users, "ShowTicket", "show", shows)
    seeing.compare(users, "ShowTicketComments", "history", shows_comments)
    for right in ("ShowTicket", "ShowTicketComments"):
        both, here, there, none = (seeing.counts[right, *it] for it in
                                   ((True, True), (True, False), (False, True), (False, False)))
        print(f"{right} of {len(users)} people: {both:,} in both, {none:,} in neither, {there:,} in RT alone,"
              f" {here:,} here alone")
    return 1 if seeing.wrong else 0


if __name__ == "__main__":
    sys.exit(main())
