#!/usr/bin/env python3
"""Picks thirty tickets of a desk that was moved for a person to look at, in RT and here: those that a
move is likeliest to get wrong, and others by lot. Of each it prints the two addresses, why it was
picked, and what stands here.

    thirty.py OUT FILE [RT [DESK]]

OUT is that of from_rt.py and FILE the desk's. RT and DESK are the beginnings of their addresses."""
import datetime
import json
import os
import random
import sqlite3
import sys

COUNT = 30
LOT = 7    # so that who looks again looks at the same
WHY = [
    ("the oldest", "SELECT id FROM request ORDER BY created, id LIMIT 1"),
    ("the newest", "SELECT id FROM request ORDER BY created DESC, id DESC LIMIT 2"),
    ("the longest history", "SELECT request FROM entry GROUP BY request ORDER BY COUNT(*) DESC LIMIT 2"),
    ("the longest text", "SELECT request FROM entry WHERE kind IN (4, 5) ORDER BY LENGTH(body) DESC LIMIT 1"),
    ("most people", "SELECT request FROM watcher GROUP BY request ORDER BY COUNT(*) DESC LIMIT 2"),
    ("most links", "SELECT source FROM link GROUP BY source ORDER BY COUNT(*) DESC LIMIT 1"),
    ("most moves", "SELECT request FROM entry WHERE kind = 2 GROUP BY request ORDER BY COUNT(*) DESC LIMIT 2"),
    ("most owners", "SELECT request FROM entry WHERE kind = 3 GROUP BY request ORDER BY COUNT(*) DESC LIMIT 1"),
    ("most files", "SELECT request FROM entry WHERE kind IN (4, 5) AND body LIKE '%(a file: %' GROUP BY request"
                   " ORDER BY COUNT(*) DESC LIMIT 2"),
    ("merged", "SELECT request FROM entry WHERE kind = 5 AND body LIKE 'merged into %' LIMIT 2"),
    ("a text of another writing", "SELECT request FROM entry WHERE kind IN (4, 5) AND body GLOB '*[^ -~\n\t]*' LIMIT 2"),
    ("late", "SELECT id FROM request WHERE due IS NOT NULL ORDER BY due LIMIT 2"),
    ("nobody's", "SELECT id FROM request WHERE owner IS NULL ORDER BY created DESC LIMIT 1"),
    ("nobody asked", "SELECT id FROM request WHERE id NOT IN (SELECT request FROM watcher WHERE role = 1) LIMIT 1"),
]


def moment(minute):
    return datetime.datetime.fromtimestamp(minute * 60, datetime.timezone.utc).strftime("%Y-%m-%d %H:%M")


class Thirty:
    def __init__(self, file, names):
        self.file = file
        self.tickets = {number: id for id, number in names["numbers"].items()}
        self.picked = {}

    def pick(self):
        for why, statement in WHY:
            for number, in self.file.execute(statement):
                self.add(number, why)
        for queue, number in self.file.execute("SELECT queue, MAX(id) FROM request GROUP BY queue ORDER BY queue"):
            self.add(number, f"the last of {queue}")
        lot = random.Random(LOT)
        for number in lot.sample(sorted(self.tickets), min(COUNT, len(self.tickets))):
            self.add(number, "by lot")

    def add(self, number, why):
        if number in self.tickets and (number in self.picked or len(self.picked) < COUNT):
            self.picked.setdefault(number, []).append(why)

    def text(self, number):
        queue, subject, status, owner, level, created, due = self.file.execute(
            "SELECT queue, subject, status, owner, level, created, due FROM request WHERE id = ?", (number,)).fetchone()
        people = [f"{role} {person}" for role, person in self.file.execute(
            "SELECT CASE role WHEN 1 THEN 'asked by' ELSE 'copy to' END, person FROM watcher WHERE request = ?"
            " ORDER BY role, person", (number,))]
        texts = self.file.execute("SELECT moment, actor, body FROM entry WHERE request = ? AND kind IN (4, 5)"
                                  " ORDER BY number", (number,)).fetchall()
        lines = [f"    {subject}", f"    {queue}, {status}, owner {owner or 'Nobody'}, level {level or '-'},"
                 f" filed {moment(created)}, due {moment(due) if due is not None else '-'}",
                 f"    {', '.join(people) or 'nobody asked'}; {len(texts)} texts"]
        for when, actor, body in texts[-1:]:
            lines.append(f"    the last, {moment(when)}, {actor}: {' '.join(body.split())[:100]}")
        return "\n".join(lines)


def main():
    if len(sys.argv) not in (3, 4, 5):
        print(__doc__, file=sys.stderr)
        return 2
    out, path, rt, desk = [*sys.argv[1:], *["RT", "DESK"][len(sys.argv) - 3:]]
    with open(os.path.join(out, "names.json"), encoding="utf-8") as file:
        names = json.load(file)
    file = sqlite3.connect(f"file:{path}?mode=ro", uri=True)
    thirty = Thirty(file, names)
    thirty.pick()
    for place, (number, why) in enumerate(sorted(thirty.picked.items()), 1):
        print(f"[ ] {place}. {rt}/Ticket/Display.html?id={thirty.tickets[number]}"
              f"  {desk}/desk/requests/{number}  ({', '.join(why)})")
        print(thirty.text(number), end="\n\n")
    file.close()
    return 0


if __name__ == "__main__":
    sys.exit(main())
